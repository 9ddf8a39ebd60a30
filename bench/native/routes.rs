//! The bound of a tree of cases for routes, exact.
//!
//! The weights without the potentials are in one matrix through all leaves, by where a link ends, so that
//! the steps to a customer read one row. A table has, for each load and customer, the least weight of a walk
//! from the depot to there, the customer before, and the least over all others before.

use crate::branches::families_of;
use crate::fail;
use crate::file::Fields;
use crate::matrix::costs_of;
use crate::runs::{Memory, Runs};

const FIRST_ROW: usize = 10_000; // behind the nodes: where the multipliers of subset rows begin
const FAR: i64 = 1 << 61;
const MOST_SUM: i128 = 1 << 60;

struct Instance {
    count: usize,
    depot: usize,
    costs: Vec<i64>,
    demands: Vec<i64>,
    capacity: i64,
}

impl Instance {
    fn of(fields: &Fields) -> Instance {
        let [depot] = fields.depots[..] else { fail("DepotCount") };
        let (costs, demands) = (costs_of(fields), fields.demands.clone());
        Instance { count: fields.count, depot: depot as usize - 1, costs, demands, capacity: fields.capacity }
    }

    /// How many routes carry this at the least.
    fn need(&self, demand: i64) -> i128 {
        i128::from((-(-demand).div_euclid(self.capacity)).max(1))
    }
}

// ---- loads

pub struct Loads {
    pub each: Vec<usize>,
    pub room: usize,
}

impl Loads {
    /// Loads in this unit. Those that round down to 0 weigh 1 of as many parts as there are such, and one more.
    fn new(instance: &Instance, unit: i64) -> Loads {
        let whole: Vec<usize> = instance.demands.iter().map(|demand| (demand / unit) as usize).collect();
        let light = (0..instance.count).filter(|node| *node != instance.depot && whole[*node] == 0).count();
        let each = whole.iter().map(|load| (load * (light + 1)).max(1)).collect();
        Loads { each, room: (instance.capacity / unit) as usize * (light + 1) + light }
    }
}

// ---- the least walk

/// A row for each load: the least weight up to each node, the node before, and the least over other ones.
struct Table {
    best: Vec<i64>,
    second: Vec<i64>,
    before: Vec<u32>,
}

impl Table {
    fn new(entries: usize) -> Table {
        Table { best: vec![FAR; entries], second: vec![FAR; entries], before: vec![u32::MAX; entries] }
    }

    /// The least weight of a walk, where there is one. `weights` has a row for each node: the links to it.
    fn least(&mut self, weights: &[i64], loads: &Loads, depot: usize, n: usize) -> Option<i64> {
        for load in 0..=loads.room {
            for to in (0..n).filter(|to| *to != depot) {
                let place = load * n + to;
                if load < loads.each[to] {
                    (self.best[place], self.second[place]) = (FAR, FAR);
                    continue;
                }
                let from = (load - loads.each[to]) * n;
                let links = &weights[to * n..][..n];
                let rows = (&self.best[from..][..n], &self.second[from..][..n], &self.before[from..][..n]);
                let found = step(links, rows, to as u32, links[depot], depot as u32);
                (self.best[place], self.second[place], self.before[place]) = found;
            }
        }
        let last = &self.best[loads.room * n..][..n];
        let ends = &weights[depot * n..][..n];
        let sums = (0..n).filter(|node| *node != depot && last[*node] < FAR / 2).map(|node| last[node] + ends[node]);
        sums.min()
    }
}

/// The least weight of a walk whose last link is to a node, the node before it, and the least over other ones.
fn step(links: &[i64], rows: (&[i64], &[i64], &[u32]), to: u32, start: i64, depot: u32) -> (i64, i64, u32) {
    let (mut best, mut second, mut before) = (start, FAR, depot);
    let sums = links.iter().zip(rows.0).zip(rows.1).zip(rows.2);
    for (from, (((link, own), other), last)) in sums.enumerate() {
        let sum = link + if *last == to { *other } else { *own };
        if sum < second {
            if sum < best {
                (second, best, before) = (best, sum, from as u32);
            } else {
                second = sum;
            }
        }
    }
    (best, second.min(FAR), before)
}

// ---- the tree

struct Certificate {
    scale: i64,
    loads: Loads,
    sets: Vec<Vec<usize>>,
    memory: Option<Memory>,
    words: Vec<i64>,
}

impl Certificate {
    fn of(fields: &Fields, instance: &Instance) -> Certificate {
        let loads = Loads::new(instance, fields.unit.unwrap_or(1));
        let sets = families_of(&fields.families).into_iter().map(|mut sets| sets.swap_remove(0)).collect();
        let memory = Memory::of(fields, instance.count);
        Certificate { scale: fields.scale.unwrap_or(1), loads, sets, memory, words: fields.tree.clone() }
    }

    fn rows(&self) -> usize {
        self.memory.as_ref().map_or(0, Memory::rows)
    }

    /// The place of an index among the numbers: those of the nodes, of the sets and of the rows.
    fn place_of(&self, index: usize, count: usize) -> usize {
        if index <= count + FIRST_ROW {
            index - 1
        } else {
            index - 1 - FIRST_ROW + self.sets.len()
        }
    }
}

/// What is known at a leaf: the numbers, and the weights without what nodes add to them.
struct Leaf<'a> {
    instance: &'a Instance,
    certificate: &'a Certificate,
    numbers: Vec<i64>,
    ends: Vec<i64>,
    between: Vec<i64>,
    weights: Vec<i64>,
    table: Table,
}

impl<'a> Leaf<'a> {
    fn new(instance: &'a Instance, certificate: &'a Certificate) -> Leaf<'a> {
        let n = instance.count;
        let cost = |to: usize, from: usize| certificate.scale * instance.costs[from * n + to];
        let between = (0..n * n).map(|place| cost(place / n, place % n)).collect();
        let table = Table::new((certificate.loads.room + 1) * n);
        let (numbers, ends, weights) = (vec![0; n + certificate.sets.len() + certificate.rows()], vec![0; n], vec![0; n * n]);
        Leaf { instance, certificate, numbers, ends, between, weights, table }
    }

    fn change(&mut self, place: usize, difference: i64) {
        let n = self.instance.count;
        self.numbers[place] += difference;
        if place < n {
            self.ends[place] += difference;
            return;
        }
        let Some(set) = self.certificate.sets.get(place - n) else { return };
        for i in set {
            self.ends[*i] -= difference;
            for j in set {
                self.between[i * n + j] += 2 * difference;
            }
        }
    }

    /// The bound at the scale, where there is a walk. `limits` has how often each set is crossed at the least
    /// and at the most.
    fn value(&mut self, limits: &[(i128, i128)]) -> Option<i128> {
        let (n, depot) = (self.instance.count, self.instance.depot);
        for to in 0..n {
            let rows = self.weights[to * n..][..n].iter_mut().zip(&self.between[to * n..]);
            for ((weight, between), end) in rows.zip(&self.ends) {
                *weight = between + end + self.ends[to];
            }
            let most = self.weights[to * n..][..n].iter().map(|weight| i128::from(weight.abs())).max()?;
            if most * (self.certificate.loads.room as i128 + 2) > MOST_SUM {
                fail("sums don't fit 64 bits");
            }
            self.weights[to * n + to] = FAR;
        }
        let (own, others) = self.numbers.split_at(n);
        let (multipliers, gains) = others.split_at(self.certificate.sets.len());
        let loads = &self.certificate.loads;
        let (least, paid) = match &self.certificate.memory {
            Some(memory) => {
                let runs = Runs::new(memory, gains, &self.weights, loads, depot);
                (runs.least(2 * own[depot]), memory.given_back(gains))
            }
            None => (self.table.least(&self.weights, loads, depot, n)?, 0),
        };
        let each = i128::from(least) - 2 * i128::from(own[depot]);
        let given: i128 = (0..n).filter(|node| *node != depot).map(|node| 2 * i128::from(own[node])).sum();
        let sums = multipliers
            .iter()
            .zip(limits)
            .map(|(number, (low, high))| i128::from(*number) * if *number < 0 { *high } else { *low });
        let fewest = self.instance.need(self.instance.demands.iter().sum());
        Some((fewest * each).min((n as i128 - 1) * each) - given - paid + sums.sum::<i128>())
    }
}

/// The least bound of the leaves, where one has a walk.
fn least_bound(instance: &Instance, certificate: &Certificate) -> Option<i128> {
    let n = instance.count;
    let demand = |set: &Vec<usize>| set.iter().map(|node| instance.demands[*node]).sum();
    let own = certificate.sets.iter().map(|set| (2 * instance.need(demand(set)), 2 * (n as i128 - 1)));
    let (mut limits, mut above): (Vec<_>, Vec<(usize, i128, bool)>) = (own.collect(), Vec::new());
    let (plain, mut leaf) = (limits.clone(), Leaf::new(instance, certificate));
    let (mut least, mut open, mut words) = (None::<i128>, 1, certificate.words.iter().copied());
    let mut next = move || words.next().unwrap_or_else(|| fail("end: Incomplete BRANCH_SECTION"));
    while open > 0 {
        let word = next();
        if word > 0 {
            above.push((word as usize - n - 1, i128::from(next()), true));
            open += 1;
        } else {
            while let Some(place) = Some(next()).filter(|place| *place != -1) {
                leaf.change(certificate.place_of(place as usize, n), next());
            }
            least = [least, leaf.value(&limits)].into_iter().flatten().min();
            open -= 1;
            while above.pop_if(|(_, _, first)| !*first).is_some() {}
            if let Some(last) = above.last_mut() {
                last.2 = false;
            }
        }
        limits.copy_from_slice(&plain);
        for (set, times, first) in &above {
            let (low, high) = &mut limits[*set];
            if *first {
                *high = (*high).min(2 * times)
            } else {
                *low = (*low).max(2 * times + 2)
            }
        }
    }
    least.map(|value| -(-value).div_euclid(i128::from(certificate.scale)))
}

/// The least bound of the leaves.
pub fn bound(instance: &Fields, certificate: &Fields) -> i128 {
    let instance = Instance::of(instance);
    least_bound(&instance, &Certificate::of(certificate, &instance)).unwrap_or_else(|| fail("no walk"))
}
