//! The least run with a memory, exact.
//!
//! A run remembers some of its customers, and which subset rows are open. Both are bits of one
//! word, which mean something else at each customer. All states that may end below what is asked
//! for are listed, by load and customer.

use crate::fail;
use crate::file::Fields;
use crate::routes::Loads;

const MOST_STATES: usize = 10_000_000;

struct Row {
    set: Vec<usize>,
    /// The customers of the set, and the further ones.
    keepers: Vec<usize>,
}

pub struct Memory {
    /// The customers that each node remembers.
    near: Vec<Vec<usize>>,
    rows: Vec<Row>,
}

impl Memory {
    /// The memory of a certificate, unless it has none.
    pub fn of(fields: &Fields, count: usize) -> Option<Memory> {
        let (lists, rows) = (&fields.memories, &fields.subset_rows);
        if lists.is_empty() && rows.is_empty() {
            return None;
        }
        let mut near = vec![Vec::new(); count];
        for list in lists.split(|node| *node == -1).filter(|list| !list.is_empty()) {
            near[list[0] as usize - 1] = list[1..].iter().map(|node| *node as usize - 1).collect();
        }
        let mut words = rows.iter().copied();
        let mut list = || {
            words
                .by_ref()
                .take_while(|node| *node != -1)
                .map(|node| node as usize - 1)
                .collect::<Vec<_>>()
        };
        let mut rows = Vec::new();
        loop {
            let set = list();
            if set.is_empty() {
                break;
            }
            let keepers = [set.clone(), list()].concat();
            rows.push(Row { set, keepers });
        }
        Some(Memory { near, rows })
    }

    pub fn rows(&self) -> usize {
        self.rows.len()
    }

    /// What the rows cost all routes together at the most.
    pub fn given_back(&self, gains: &[i64]) -> i128 {
        self.rows
            .iter()
            .zip(gains)
            .map(|(row, gain)| i128::from(*gain) * (row.set.len() / 2) as i128)
            .sum()
    }
}

/// What happens to a word on the way from a customer to another one.
#[derive(Clone, Default)]
struct Step {
    /// The bit of the next customer, if it is remembered.
    forbidden: u64,
    /// The bits of the rows that are paid for, if they cost something.
    paid: u64,
    /// The next customer's bit of this one.
    own: u64,
    /// The bits of what both keep.
    passed: Vec<(u64, u64)>,
}

type State = (u64, i64);

pub struct Runs<'a> {
    n: usize,
    depot: usize,
    loads: &'a Loads,
    /// A row for each node: the links to it.
    weights: &'a [i64],
    steps: Vec<Step>,
    /// Of each customer, the bits of the rows whose sets have it.
    toggled: Vec<u64>,
    /// What each bit of a customer costs.
    costs: Vec<[i64; 64]>,
    /// By load and customer, the least weight back to the depot with nothing remembered.
    home: Vec<i64>,
}

impl<'a> Runs<'a> {
    pub fn new(
        memory: &Memory,
        gains: &[i64],
        weights: &'a [i64],
        loads: &'a Loads,
        depot: usize,
    ) -> Runs<'a> {
        let n = memory.near.len();
        let mut runs = Runs {
            n,
            depot,
            loads,
            weights,
            steps: vec![Step::default(); n * n],
            toggled: vec![0; n],
            costs: vec![[0; 64]; n],
            home: Vec::new(),
        };
        // Things that a node keeps: customers, and from n on rows, also those that cost nothing.
        let mut things: Vec<Vec<usize>> = memory.near.clone();
        for (number, (row, gain)) in memory.rows.iter().zip(gains).enumerate() {
            for node in &row.keepers {
                let place = things[*node].len();
                if place == 64 {
                    fail("a customer keeps too much");
                }
                things[*node].push(n + number);
                runs.costs[*node][place] = *gain;
                if row.set.contains(node) {
                    runs.toggled[*node] |= 1 << place;
                }
            }
        }
        for from in 0..n {
            for to in 0..n {
                runs.steps[from * n + to] = step_of(memory, &things, gains, from, to);
            }
        }
        runs.fill_home();
        runs
    }

    fn link(&self, from: usize, to: usize) -> i64 {
        self.weights[to * self.n + from]
    }

    /// The customers that fit after a load, but for one.
    fn next(&self, load: usize, but: usize) -> impl Iterator<Item = usize> + '_ {
        (0..self.n).filter(move |to| {
            *to != but && *to != self.depot && load + self.loads.each[*to] <= self.loads.room
        })
    }

    fn fill_home(&mut self) {
        let mut home = vec![0; (self.loads.room + 1) * self.n];
        for load in (0..=self.loads.room).rev() {
            for node in self.next(0, self.depot) {
                let ways = self.next(load, node).map(|to| {
                    self.link(node, to) + home[(load + self.loads.each[to]) * self.n + to]
                });
                home[load * self.n + node] =
                    ways.min().unwrap_or(i64::MAX).min(self.link(node, self.depot));
            }
        }
        self.home = home;
    }

    /// The least weight of a run, or this where all weigh more.
    pub fn least(&self, most: i64) -> i64 {
        let mut cells: Vec<Vec<State>> = vec![Vec::new(); (self.loads.room + 1) * self.n];
        for node in self.next(0, self.depot) {
            let (load, link) = (self.loads.each[node], self.link(self.depot, node));
            if link + self.home[load * self.n + node] < most {
                cells[load * self.n + node].push((self.toggled[node], link));
            }
        }
        let (mut least, mut count) = (most, 0);
        for place in 0..cells.len() {
            let mut states = std::mem::take(&mut cells[place]);
            join(&mut states);
            count += states.len();
            if count > MOST_STATES {
                fail("TooManyStates");
            }
            least = self.spread(place, &states, &mut cells, most).min(least);
        }
        least
    }

    /// Goes on from the states of a load and a customer. The least weight of those that go home
    /// from there.
    fn spread(&self, place: usize, states: &[State], cells: &mut [Vec<State>], most: i64) -> i64 {
        let (load, node) = (place / self.n, place % self.n);
        if states.is_empty() {
            return most;
        }
        let cell = |to: usize| (load + self.loads.each[to]) * self.n + to;
        let mut ways: Vec<_> = self
            .next(load, node)
            .map(|to| (self.link(node, to) + self.home[cell(to)], to))
            .collect();
        ways.sort_unstable();
        for (word, weight) in states {
            for (way, to) in ways.iter().take_while(|(way, _)| weight + way < most) {
                let step = &self.steps[node * self.n + to];
                if word & step.forbidden != 0 {
                    continue;
                }
                let cost = self.cost(node, word & step.paid);
                if weight + way + cost >= most {
                    continue;
                }
                let passed = step.passed.iter().filter(|(from, _)| word & from != 0);
                let next = passed.fold(step.own, |next, (_, bit)| next | bit) ^ self.toggled[*to];
                let cell = &mut cells[cell(*to)];
                cell.push((next, weight + self.link(node, *to) + cost));
                if cell.len() == cell.capacity() {
                    join(cell);
                    cell.reserve(cell.len().max(64));
                }
            }
        }
        states.iter().map(|(_, weight)| weight + self.link(node, self.depot)).min().unwrap_or(most)
    }

    fn cost(&self, node: usize, mut rows: u64) -> i64 {
        let mut sum = 0;
        while rows != 0 {
            sum += self.costs[node][rows.trailing_zeros() as usize];
            rows &= rows - 1;
        }
        sum
    }
}

fn step_of(memory: &Memory, things: &[Vec<usize>], gains: &[i64], from: usize, to: usize) -> Step {
    let n = things.len();
    let bit = |node: usize, thing: usize| {
        things[node].iter().position(|it| *it == thing).map(|place| 1u64 << place)
    };
    let mut step = Step { own: bit(to, from).unwrap_or(0), ..Step::default() };
    for (place, thing) in things[from].iter().enumerate() {
        let own = 1 << place;
        if *thing == to {
            step.forbidden = own;
        }
        if *thing >= n && gains[thing - n] > 0 && memory.rows[thing - n].set.contains(&to) {
            step.paid |= own;
        }
        if let Some(other) = bit(to, *thing) {
            step.passed.push((own, other));
        }
    }
    step
}

/// Leaves the least weight of each word.
fn join(states: &mut Vec<State>) {
    states.sort_unstable();
    states.dedup_by_key(|state| state.0);
}
