//! The bound of a tree of cases for a tour, exact.
//!
//! The weights without the potentials are in one matrix through all leaves: a branch marks two cells
//! of it, and a multiplier that changes changes the pairs inside a set of its family. The crossings of a
//! set by a pair are 1 at each end inside, less 2 where both are, so the ends go to the potentials.
//! A leaf takes a least 1-tree under TYPE TSP, and the least open arc of each row under TYPE ATSP.

use crate::fail;
use crate::file::Fields;
use crate::matrix::costs_of;

const MARK: i64 = 4_000_000_000_000_000_000;

type Pair = (usize, usize);

// ---- certificates

enum Step {
    Branch(Pair),
    Leaf(Vec<(usize, i64)>),
}

/// Runs of nodes that -1 ends; a second -1 ends a family, and one more the list.
pub fn families_of(words: &[i64]) -> Vec<Vec<Vec<usize>>> {
    let (mut families, mut family, mut set) = (Vec::new(), Vec::new(), Vec::new());
    for word in words {
        if *word != -1 {
            set.push(*word as usize - 1);
        } else if !set.is_empty() {
            family.push(std::mem::take(&mut set));
        } else if !family.is_empty() {
            families.push(std::mem::take(&mut family));
        } else {
            break;
        }
    }
    families
}

/// The pair of two nodes: an arc, or without a direction the smaller node first.
fn pair_of(directed: bool, i: i64, j: i64) -> Pair {
    let turned = !directed && i > j;
    let (from, to) = if turned { (j, i) } else { (i, j) };
    (from as usize - 1, to as usize - 1)
}

/// The steps in the words of a section, up to the end of the tree.
fn steps_of(words: &[i64], directed: bool) -> Vec<Step> {
    let (mut steps, mut words, mut open) = (Vec::new(), words.iter().copied(), 1);
    let mut next = move || words.next().unwrap_or_else(|| fail("end: Incomplete BRANCH_SECTION"));
    while open > 0 {
        let word = next();
        if word > 0 {
            steps.push(Step::Branch(pair_of(directed, word, next())));
            open += 1;
            continue;
        }
        let mut numbers = Vec::new();
        while let Some(index) = Some(next()).filter(|index| *index != -1) {
            numbers.push((index as usize, next()));
        }
        steps.push(Step::Leaf(numbers));
        open -= 1;
    }
    steps
}

/// Goes along the tree: the decisions above each step, by calls at a decision and at its end.
#[derive(Default)]
struct Cycle {
    path: Vec<(Pair, bool)>,
}

impl Cycle {
    fn down(&mut self, pair: Pair) {
        self.path.push((pair, true));
    }

    /// After a leaf: the pairs whose two cases are both done, and the one whose second case begins.
    fn back(&mut self) -> (Vec<Pair>, Option<Pair>) {
        let mut done = Vec::new();
        while let Some((pair, taken)) = self.path.pop() {
            if taken {
                self.path.push((pair, false));
                return (done, Some(pair));
            }
            done.push(pair);
        }
        (done, None)
    }
}

/// Whether a family of several sets is a comb: an odd number of teeth, each across the border of the first set.
fn is_comb(family: &[Vec<usize>], count: usize) -> bool {
    let teeth = &family[1..];
    let mut inside = vec![false; count];
    family[0].iter().for_each(|node| inside[*node] = true);
    let mut used = vec![false; count];
    let is_tooth = |tooth: &Vec<usize>| {
        let is_apart = tooth.iter().all(|node| !std::mem::replace(&mut used[*node], true));
        let within = tooth.iter().filter(|node| inside[**node]).count();
        is_apart && within > 0 && within < tooth.len()
    };
    teeth.len() >= 3 && teeth.len() % 2 == 1 && teeth.iter().all(is_tooth)
}

/// How often tours cross a family at the least.
fn crossings_of(family: &[Vec<usize>], count: usize) -> i128 {
    if family.len() == 1 {
        return 2;
    }
    if is_comb(family, count) {
        return 3 * family.len() as i128 - 2;
    }
    let mut marks = vec![0u64; count];
    for (number, set) in family.iter().enumerate() {
        set.iter().for_each(|node| marks[*node] |= 1 << number);
    }
    marks.sort_unstable();
    marks.dedup();
    let apart = |a: &u64| marks.iter().map(|b| (a ^ b).count_ones()).collect();
    let costs: Vec<Vec<u32>> = marks.iter().map(apart).collect();
    i128::from(least_cycle(&costs))
}

/// The least length of a cycle: the shortest paths from each part through a set of others to the last.
fn least_cycle(costs: &[Vec<u32>]) -> u32 {
    let others = costs.len() - 1;
    let mut shortest = vec![u32::MAX; others << others];
    for set in 1usize..1 << others {
        for from in (0..others).filter(|from| set >> from & 1 == 1) {
            let rest = set & !(1 << from);
            let paths = &shortest[rest * others..][..others];
            let sums = costs[from][..others].iter().zip(paths).map(|(cost, path)| cost.saturating_add(*path));
            let least = if rest == 0 { costs[from][others] } else { sums.min().unwrap_or(u32::MAX) };
            shortest[set * others + from] = least;
        }
    }
    let whole = &shortest[((1 << others) - 1) * others..];
    costs[others][..others].iter().zip(whole).map(|(cost, path)| cost + path).min().unwrap_or(0)
}

// ---- the bound

/// The weights of the pairs but for the numbers of the nodes, these, and what the bound adds to the
/// weight of a 1-tree, without the taken pairs, or to the least arcs.
struct Weights {
    directed: bool,
    count: usize,
    families: Vec<Vec<Vec<usize>>>,
    crossed: Vec<i128>,
    between: Vec<i64>,
    ends: Vec<i64>,
    added: i128,
    taken: i128,
}

impl Weights {
    fn new(instance: &Fields, certificate: &Fields) -> Weights {
        let (directed, count) = (instance.kind == "ATSP", instance.count);
        let families = families_of(&certificate.families);
        let crossed = families.iter().map(|family| crossings_of(family, count)).collect();
        let scale = certificate.scale.unwrap_or(1);
        let between = costs_of(instance).into_iter().map(|cost| scale * cost).collect();
        Weights { directed, count, families, crossed, between, ends: vec![0; count], added: 0, taken: 0 }
    }

    /// Marks a pair that is decided. Arcs are closed by `least_arcs`.
    fn mark(&mut self, (i, j): Pair, change: i64) {
        if self.directed {
            return;
        }
        self.between[i * self.count + j] += change;
        self.between[j * self.count + i] += change;
    }

    /// Changes a potential, or the multiplier of a family.
    fn change(&mut self, place: usize, difference: i64) {
        if place <= self.count {
            self.ends[place - 1] += difference;
            self.added -= 2 * i128::from(difference);
            return;
        }
        let family = place - self.count - 1;
        self.added += i128::from(difference) * self.crossed[family];
        for set in &self.families[family] {
            for i in set {
                self.ends[*i] -= difference;
                let row = &mut self.between[i * self.count..][..self.count];
                for j in set {
                    row[*j] += 2 * difference;
                }
            }
        }
    }

    /// The bound at the scale: a least 1-tree's weight with all that is added.
    fn value(&self) -> i128 {
        let n = self.count;
        let mut nodes: Vec<u32> = (2..n as u32).collect();
        let mut near = vec![i64::MAX; nodes.len()];
        let (mut sum, mut at) = (0i128, 1);
        while !nodes.is_empty() {
            let row = &self.between[at * n..][..n];
            let own = self.ends[at];
            let (mut best, mut place) = (i64::MAX, 0);
            for (k, (node, least)) in nodes.iter().zip(near.iter_mut()).enumerate() {
                let node = *node as usize;
                let weight = row[node] + self.ends[node] + own;
                if weight < *least {
                    *least = weight;
                }
                if *least < best {
                    (best, place) = (*least, k);
                }
            }
            sum += i128::from(best);
            at = nodes.swap_remove(place) as usize;
            near.swap_remove(place);
        }
        sum + self.spokes() + self.added + i128::from(MARK) * self.taken
    }

    /// The bound at the scale by the least open arc of each row, where each row has one.
    fn least_arcs(&self, decided: &[(Pair, bool)]) -> Option<i128> {
        let n = self.count;
        let (mut sum, mut row) = (0i128, vec![0; n]);
        for from in 0..n {
            for ((weight, between), end) in row.iter_mut().zip(&self.between[from * n..]).zip(&self.ends) {
                *weight = between + end;
            }
            row[from] = i64::MAX;
            for ((tail, head), taken) in decided {
                let kept = row[*head];
                if *taken && *tail == from {
                    row.fill(i64::MAX);
                    row[*head] = kept;
                } else if *taken || *tail == from {
                    row[*head] = i64::MAX;
                }
            }
            let least = *row.iter().min()?;
            if least == i64::MAX {
                return None;
            }
            sum += i128::from(least) + i128::from(self.ends[from]);
        }
        Some(sum + self.added)
    }

    /// The two least edges at the first node.
    fn spokes(&self) -> i128 {
        let (mut first, mut second) = (i64::MAX, i64::MAX);
        for (between, end) in self.between[1..self.count].iter().zip(&self.ends[1..]) {
            let weight = between + end + self.ends[0];
            second = second.min(weight.max(first));
            first = first.min(weight);
        }
        i128::from(first) + i128::from(second)
    }
}

/// The least bound of the leaves.
pub fn bound(instance: &Fields, certificate: &Fields) -> i128 {
    let mut weights = Weights::new(instance, certificate);
    let (mut cycle, mut least) = (Cycle::default(), i128::MAX);
    for step in steps_of(&certificate.tree, weights.directed) {
        let numbers = match step {
            Step::Branch(pair) => {
                cycle.down(pair);
                weights.mark(pair, -MARK);
                weights.taken += 1;
                continue;
            }
            Step::Leaf(numbers) => numbers,
        };
        numbers.into_iter().for_each(|(place, difference)| weights.change(place, difference));
        let value = if weights.directed { weights.least_arcs(&cycle.path) } else { Some(weights.value()) };
        least = least.min(value.unwrap_or(i128::MAX));
        let (done, turned) = cycle.back();
        done.into_iter().for_each(|pair| weights.mark(pair, -MARK));
        if let Some(pair) = turned {
            weights.mark(pair, MARK);
            weights.mark(pair, MARK);
            weights.taken -= 1;
        }
    }
    -(-least).div_euclid(i128::from(certificate.scale.unwrap_or(1)))
}
