//! What is done with matrices: symmetry, a least 1-tree, duals.

use crate::fail;
use crate::file::Fields;
use crate::points::{Metric, Nearest};
use crate::whole::plane;

const TILE: usize = 32;

/// Whether the weights are the same in both directions: by squares, so that columns stay in the cache.
pub fn is_symmetric(weights: &[i64], count: usize) -> bool {
    let mut differs = 0;
    for top in (0..count).step_by(TILE) {
        for left in (top..count).step_by(TILE) {
            for i in top..(top + TILE).min(count) {
                for j in left..(left + TILE).min(count) {
                    differs |= weights[i * count + j] ^ weights[j * count + i];
                }
            }
        }
    }
    differs == 0
}

/// The sum of duals, which may be above no weight at the scale.
pub fn duals(weights: &[i64], scale: i64, rows: &[i64], columns: &[i64]) -> i128 {
    for (i, (row, costs)) in rows.iter().zip(weights.chunks_exact(rows.len())).enumerate() {
        let is_above = |(column, cost): (&i64, &i64)| row + column > scale * cost;
        let (before, after) = (costs[..i].iter(), costs[i + 1..].iter());
        if columns[..i].iter().zip(before).any(is_above) || columns[i + 1..].iter().zip(after).any(is_above) {
            fail("DualAbove");
        }
    }
    rows.iter().chain(columns).map(|number| i128::from(*number)).sum()
}

/// The nodes outside of a tree that grows, and of each the least weight to a node inside.
struct Outside {
    nodes: Vec<u32>,
    least: Vec<i64>,
}

impl Outside {
    /// Updates the least weights by those of a node that came inside; the place of the least one.
    #[inline(always)]
    fn bring(&mut self, weight: impl Fn(usize) -> i64) -> usize {
        let (mut best, mut nearest) = (i64::MAX, 0);
        for (place, (node, least)) in self.nodes.iter().zip(&mut self.least).enumerate() {
            *least = (*least).min(weight(*node as usize));
            if *least < best {
                (best, nearest) = (*least, place);
            }
        }
        nearest
    }
}

/// The weight of a least 1-tree, grown from the second node. `row` gives the weights of a node's row.
#[inline(always)]
fn one_tree<'a, R: Fn(usize) -> i64 + 'a>(count: usize, numbers: &[i64], scale: i64, row: impl Fn(usize) -> R) -> i128 {
    let mut outside = Outside { nodes: (2..count as u32).collect(), least: vec![i64::MAX; count - 2] };
    let (mut sum, mut at) = (0i128, 1);
    while !outside.nodes.is_empty() {
        let (costs, own) = (row(at), numbers[at]);
        let nearest = outside.bring(|node| scale * costs(node) + own + numbers[node]);
        at = outside.nodes.swap_remove(nearest) as usize;
        sum += i128::from(outside.least.swap_remove(nearest));
    }
    let (costs, mut first, mut second) = (row(0), i64::MAX, i64::MAX);
    for (node, number) in numbers.iter().enumerate().skip(1) {
        let weight = scale * costs(node) + numbers[0] + number;
        (first, second) = if weight < first { (weight, first) } else { (first, second.min(weight)) };
    }
    sum + i128::from(first) + i128::from(second)
}

pub fn full_tree(weights: &[i64], count: usize, numbers: &[i64], scale: i64) -> i128 {
    one_tree(count, numbers, scale, |from| {
        let row = &weights[from * count..(from + 1) * count];
        move |node| row[node]
    })
}

/// The place of a pair above the diagonal.
pub fn upper_place(count: usize, i: usize, j: usize) -> usize {
    let (low, high) = (i.min(j), i.max(j));
    low * (2 * count - low - 1) / 2 + high - low - 1
}

/// Over the weights above the diagonal, of which row i begins `starts[i]` places before its own node.
pub fn upper_tree(weights: &[i64], count: usize, numbers: &[i64], scale: i64) -> i128 {
    let starts: Vec<usize> = (0..count).map(|i| (i * (2 * count - i - 1) / 2).wrapping_sub(i + 1)).collect();
    let starts = starts.as_slice();
    one_tree(count, numbers, scale, |from| move |node| weights[starts[from.min(node)].wrapping_add(from.max(node))])
}

/// The costs of an instance, row by row: of a full matrix, or of points in a plane to the nearest whole number.
pub fn costs_of(instance: &Fields) -> Vec<i64> {
    if instance.weight_type != "EUC_2D" {
        return instance.weights.clone();
    }
    let points = plane(instance);
    points.iter().flat_map(|a| points.iter().map(|b| Nearest::exact(a, b))).collect()
}
