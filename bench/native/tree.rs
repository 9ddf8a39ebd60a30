//! A least tree over points: rounds in which each component adds its least link, over a tree of boxes.
//!
//! Boxes are left alone by doubles with a margin for their rounding. Weights are exact.

use crate::points::{Metric, UNIT, are_whole, square, whole_of};

const LEAF: usize = 8;
/// No weight: above all of them, and far from the limits of sums.
const NONE: i64 = i64::MAX / 4;
const MARGIN: f64 = 1.0 + 1e-12;
/// A label that no component has.
const MIXED: u32 = u32::MAX;

#[derive(Clone, Copy)]
struct Area<const D: usize> {
    low: [f64; D],
    high: [f64; D],
    least: i64,
}

/// The place at the other end of a pair, and the pair's weight.
#[derive(Clone, Copy)]
struct Link {
    weight: i64,
    to: u32,
}

/// The nodes but the first in the order of the leaves, boxes 1, 2, .. with halves 2v and 2v + 1, and of each
/// place and box the label of its component.
struct Space<const D: usize> {
    order: Vec<u32>,
    exact: Vec<[i64; D]>,
    near: Vec<[f64; D]>,
    numbers: Vec<i64>,
    labels: Vec<u32>,
    areas: Vec<Area<D>>,
    tags: Vec<u32>,
    levels: u32,
    scale: i64,
    inverse: f64,
    slack: f64,
}

/// The places of a box on a level.
#[inline(always)]
fn places(count: usize, levels: u32, v: usize) -> std::ops::Range<usize> {
    let index = v - (1 << levels);
    (index * count) >> levels..((index + 1) * count) >> levels
}

/// Sorts items so that each box has those of its places: halves along the longer side.
fn split<const D: usize>(items: &mut [([f64; D], u32)], depth: u32, levels: u32, v: usize, count: usize) {
    if depth == levels {
        return;
    }
    let (mut low, mut high) = ([f64::MAX; D], [f64::MIN; D]);
    for (place, _) in items.iter() {
        for axis in 0..D {
            low[axis] = low[axis].min(place[axis]);
            high[axis] = high[axis].max(place[axis]);
        }
    }
    let side = |axis: &usize| high[*axis] - low[*axis];
    let axis = (0..D).max_by(|a, b| side(a).total_cmp(&side(b))).unwrap_or(0);
    let middle = places(count, depth + 1, 2 * v).len();
    items.select_nth_unstable_by(middle, |a, b| a.0[axis].total_cmp(&b.0[axis]));
    let (left, right) = items.split_at_mut(middle);
    split(left, depth + 1, levels, 2 * v, count);
    split(right, depth + 1, levels, 2 * v + 1, count);
}

impl<const D: usize> Area<D> {
    const EMPTY: Area<D> = Area { low: [f64::MAX; D], high: [f64::MIN; D], least: NONE };

    fn joined(&self, other: &Area<D>) -> Area<D> {
        Area {
            low: std::array::from_fn(|axis| self.low[axis].min(other.low[axis])),
            high: std::array::from_fn(|axis| self.high[axis].max(other.high[axis])),
            least: self.least.min(other.least),
        }
    }

    #[inline(always)]
    fn square(&self, from: &[f64; D]) -> f64 {
        let way = |axis: usize| (self.low[axis] - from[axis]).max(from[axis] - self.high[axis]).max(0.0);
        (0..D).map(|axis| way(axis) * way(axis)).sum()
    }
}

impl<const D: usize> Space<D> {
    fn new(points: &[[i64; D]], numbers: &[i64], scale: i64, slack: f64) -> Space<D> {
        let low: [i64; D] = std::array::from_fn(|axis| points.iter().map(|it| it[axis]).min().unwrap_or(0));
        let near = |node: usize| -> [f64; D] {
            std::array::from_fn(|axis| {
                let way = points[node][axis] - low[axis];
                if slack == 0.0 { (way / UNIT) as f64 } else { way as f64 * 1e-9 }
            })
        };
        let count = points.len() - 1;
        let levels = (count / LEAF).max(1).ilog2();
        let mut items: Vec<_> = (1..points.len()).map(|node| (near(node), node as u32)).collect();
        split(&mut items, 0, levels, 1, count);
        let order: Vec<u32> = items.iter().map(|item| item.1).collect();
        let mut space = Space {
            exact: order.iter().map(|node| points[*node as usize]).collect(),
            near: items.iter().map(|item| item.0).collect(),
            numbers: order.iter().map(|node| numbers[*node as usize]).collect(),
            labels: (0..count as u32).collect(),
            areas: vec![Area::EMPTY; 2 << levels],
            tags: vec![MIXED; 2 << levels],
            order,
            levels,
            scale,
            inverse: 1.0 / scale as f64,
            slack,
        };
        space.fit();
        space.tag();
        space
    }

    fn places(&self, v: usize) -> std::ops::Range<usize> {
        places(self.order.len(), self.levels, v)
    }

    fn fit(&mut self) {
        let leaves = 1 << self.levels;
        for v in (1..2 * leaves).rev() {
            self.areas[v] = if v < leaves {
                self.areas[2 * v].joined(&self.areas[2 * v + 1])
            } else {
                let of = |place| Area { low: self.near[place], high: self.near[place], least: self.numbers[place] };
                self.places(v).fold(Area::EMPTY, |area, place| area.joined(&of(place)))
            };
        }
    }

    fn tag(&mut self) {
        let leaves = 1 << self.levels;
        for v in (1..2 * leaves).rev() {
            self.tags[v] = if v < leaves {
                let (left, right) = (self.tags[2 * v], self.tags[2 * v + 1]);
                if left == right { left } else { MIXED }
            } else {
                let mut labels = self.places(v).map(|place| self.labels[place]);
                let first = labels.next().unwrap_or(MIXED);
                if labels.all(|label| label == first) { first } else { MIXED }
            };
        }
    }

    /// Whether a node at this distance or farther, of which `left` remains below the best weight without the
    /// potentials, can't have a lower one.
    #[inline(always)]
    fn is_beyond<M: Metric>(&self, square: f64, left: i64) -> bool {
        if left <= 0 {
            return true;
        }
        let quotient = left as f64 * self.inverse;
        let least = if left < 1 << 50 {
            let below = whole_of(quotient) as f64;
            if below < quotient { below + 1.0 } else { below }
        } else {
            quotient + 1.0
        };
        let radius = (M::radius(least) + self.slack) * MARGIN;
        square > radius * radius
    }

    #[inline(always)]
    fn better_of<M: Metric, const WHOLE: bool>(&self, from: usize, to: usize, best: Link) -> Link {
        let square = square(&self.near[from], &self.near[to]);
        let both = self.numbers[from] + self.numbers[to];
        if self.is_beyond::<M>(square, best.weight - both) {
            return best;
        }
        let cost = if WHOLE { M::whole(square) } else { M::exact(&self.exact[from], &self.exact[to]) };
        let weight = self.scale * cost + both;
        if weight < best.weight { Link { weight, to: to as u32 } } else { best }
    }

    fn below<M: Metric, const WHOLE: bool>(&self, from: usize, v: usize, mut best: Link) -> Link {
        let (label, area) = (self.labels[from], &self.areas[v]);
        let left = best.weight - self.numbers[from] - area.least;
        if self.tags[v] == label || self.is_beyond::<M>(area.square(&self.near[from]), left) {
            return best;
        }
        if v < 1 << self.levels {
            let half = self.below::<M, WHOLE>(from, 2 * v, best);
            return self.below::<M, WHOLE>(from, 2 * v + 1, half);
        }
        for to in self.places(v) {
            if self.labels[to] != label {
                best = self.better_of::<M, WHOLE>(from, to, best);
            }
        }
        best
    }

    /// The least link from a place to another component; `hint` may be a good end.
    fn nearest<M: Metric, const WHOLE: bool>(&self, from: usize, leaf: usize, hint: usize) -> Link {
        let mut best = Link { weight: NONE, to: from as u32 };
        if self.labels[hint] != self.labels[from] {
            best = self.better_of::<M, WHOLE>(from, hint, best);
        }
        best = self.below::<M, WHOLE>(from, leaf, best);
        let mut v = leaf;
        while v > 1 {
            best = self.below::<M, WHOLE>(from, v ^ 1, best);
            v /= 2;
        }
        best
    }

    /// Searches again from each place whose link may be its component's best, and no longer leaves it.
    fn search_again<M: Metric, const WHOLE: bool>(&self, known: &mut [Link], best: &mut [Link]) {
        for leaf in 1 << self.levels..2 << self.levels {
            for from in self.places(leaf) {
                let mine = &mut best[self.labels[from] as usize];
                if known[from].weight < mine.weight {
                    known[from] = self.nearest::<M, WHOLE>(from, leaf, mine.to as usize);
                    if known[from].weight < mine.weight {
                        *mine = known[from];
                    }
                }
            }
        }
    }

    /// The weight of a least tree.
    fn grown<M: Metric, const WHOLE: bool>(&mut self) -> i128 {
        let count = self.order.len();
        let none = Link { weight: NONE, to: 0 };
        let mut known = Vec::with_capacity(count);
        let mut hint = 0;
        for leaf in 1 << self.levels..2 << self.levels {
            for from in self.places(leaf) {
                let link = self.nearest::<M, WHOLE>(from, leaf, hint);
                hint = link.to as usize;
                known.push(link);
            }
        }
        let (mut sum, mut joined) = (0i128, 1);
        let mut best = vec![none; count];
        while joined < count {
            best.fill(none);
            for (place, link) in known.iter().enumerate() {
                let label = self.labels[place];
                if self.labels[link.to as usize] != label && link.weight < best[label as usize].weight {
                    best[label as usize] = *link;
                }
            }
            self.search_again::<M, WHOLE>(&mut known, &mut best);
            joined += self.join(&best, &mut sum);
        }
        sum
    }

    /// Joins components along their best links; how many vanish. Links that close a cycle weigh the same.
    fn join(&mut self, best: &[Link], sum: &mut i128) -> usize {
        let mut above: Vec<u32> = (0..best.len() as u32).collect();
        let mut joined = 0;
        for (label, link) in best.iter().enumerate() {
            if link.weight == NONE {
                continue;
            }
            let (own, other) = (root(&mut above, label as u32), root(&mut above, self.labels[link.to as usize]));
            if own != other {
                above[own as usize] = other;
                *sum += i128::from(link.weight);
                joined += 1;
            }
        }
        for label in &mut self.labels {
            *label = root(&mut above, *label);
        }
        self.tag();
        joined
    }
}

/// The label that stands for a component, with shorter ways from now on.
fn root(above: &mut [u32], mut label: u32) -> u32 {
    while above[label as usize] != label {
        let next = above[label as usize];
        above[label as usize] = above[next as usize];
        label = next;
    }
    label
}

/// The weight of a least 1-tree of points.
pub fn one_tree<M: Metric, const D: usize>(points: &[[i64; D]], numbers: &[i64], scale: i64) -> i128 {
    let all = || points.iter().flatten();
    let (low, high) = (all().min().copied().unwrap_or(0), all().max().copied().unwrap_or(0));
    let is_whole = are_whole(points);
    // Of a coordinate the double is 3 roundings away at most, so a distance 12.
    let slack = if is_whole { 0.0 } else { (high - low) as f64 * 1e-9 * f64::EPSILON * 8.0 };
    let spokes = (1..points.len()).map(|node| scale * M::exact(&points[0], &points[node]) + numbers[0] + numbers[node]);
    let (first, second) = spokes.fold((NONE, NONE), |(first, second), weight| {
        if weight < first { (weight, first) } else { (first, second.min(weight)) }
    });
    let mut space = Space::new(points, numbers, scale, slack);
    let tree = if is_whole { space.grown::<M, true>() } else { space.grown::<M, false>() };
    tree + i128::from(first) + i128::from(second)
}
