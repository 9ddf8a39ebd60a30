//! Distances of points, exact: by doubles if all coordinates are whole, else in billionths by squares of 128 bits.

pub const UNIT: i64 = 1_000_000_000;
const SQUARE_UNIT: i128 = 1_000_000_000_000_000_000;
/// Whole coordinates whose squares are exact in doubles.
const MOST_SPAN: i64 = 1 << 24;

pub trait Metric {
    /// The cost between points in billionths.
    fn exact<const D: usize>(a: &[i64; D], b: &[i64; D]) -> i64;
    /// The cost between whole points, by their squared distance, which is below 2^51.
    fn whole(square: f64) -> i64;
    /// No cost is below a whole number from 1 on where the distance is above this.
    fn radius(least: f64) -> f64;
}

pub struct Nearest;
pub struct Ceiling;
pub struct Att;

/// The whole number below a double, which is finite and far below 2^63.
#[inline(always)]
pub fn whole_of(near: f64) -> i64 {
    unsafe { near.to_int_unchecked() }
}

/// Whether the squared distances of points are exact in doubles, in units of 1.
pub fn are_whole<const D: usize>(points: &[[i64; D]]) -> bool {
    let all = || points.iter().flatten();
    let span = || all().max().unwrap_or(&0) - all().min().unwrap_or(&0);
    all().all(|axis| axis % UNIT == 0) && span() < MOST_SPAN * UNIT
}

#[inline(always)]
pub fn square<const D: usize>(a: &[f64; D], b: &[f64; D]) -> f64 {
    (0..D).map(|axis| (a[axis] - b[axis]) * (a[axis] - b[axis])).sum()
}

/// The square of a distance: near it, and exactly.
#[inline(always)]
fn squares<const D: usize>(a: &[i64; D], b: &[i64; D]) -> (f64, i128) {
    let (mut near, mut square) = (0.0, 0);
    for axis in 0..D {
        let way = a[axis] - b[axis];
        near += way as f64 * way as f64;
        square += i128::from(way) * i128::from(way);
    }
    (near, square)
}

/// The least whole number that covers, where the estimate is wrong.
#[cold]
#[inline(never)]
fn exact_root(covers: impl Fn(i128) -> bool) -> i64 {
    let (mut low, mut high) = (0i128, 3_464_101_617i128);
    while low < high {
        let middle = (low + high) / 2;
        if covers(middle) {
            high = middle;
        } else {
            low = middle + 1;
        }
    }
    low as i64
}

impl Metric for Nearest {
    #[inline(always)]
    fn exact<const D: usize>(a: &[i64; D], b: &[i64; D]) -> i64 {
        let (near, square) = squares(a, b);
        let whole = whole_of(near.sqrt() * 1e-9 + 0.5);
        let edge = i128::from((2 * whole + 1) * UNIT);
        let past = edge * edge - 4 * square;
        if past > 0 && (past <= i128::from(whole) * (8 * SQUARE_UNIT) || whole == 0) {
            return whole;
        }
        exact_root(|whole| {
            let edge = (2 * whole + 1) * i128::from(UNIT);
            4 * square < edge * edge
        })
    }

    #[inline(always)]
    fn whole(square: f64) -> i64 {
        whole_of(square.sqrt() + 0.5)
    }

    #[inline(always)]
    fn radius(least: f64) -> f64 {
        least - 0.5
    }
}

impl Metric for Ceiling {
    #[inline(always)]
    fn exact<const D: usize>(a: &[i64; D], b: &[i64; D]) -> i64 {
        let (near, square) = squares(a, b);
        let whole = whole_of(near.sqrt() * 1e-9 + 0.999_999_999);
        let edge = i128::from(whole * UNIT);
        let past = edge * edge - square;
        if past >= 0 && past < i128::from(2 * whole - 1) * SQUARE_UNIT {
            return whole;
        }
        exact_root(|whole| square <= whole * whole * SQUARE_UNIT)
    }

    #[inline(always)]
    fn whole(square: f64) -> i64 {
        let root = square.sqrt();
        let below = whole_of(root);
        below + i64::from(root > below as f64)
    }

    #[inline(always)]
    fn radius(least: f64) -> f64 {
        least - 1.0
    }
}

impl Metric for Att {
    #[inline(always)]
    fn exact<const D: usize>(a: &[i64; D], b: &[i64; D]) -> i64 {
        let (near, square) = squares(a, b);
        let whole = whole_of((near * 0.1).sqrt() * 1e-9 + 0.999_999_999);
        let edge = i128::from(whole * UNIT);
        let past = 10 * (edge * edge) - square;
        if past >= 0 && past < i128::from(20 * whole - 10) * SQUARE_UNIT {
            return whole;
        }
        exact_root(|whole| square <= 10 * whole * whole * SQUARE_UNIT)
    }

    #[inline(always)]
    fn whole(square: f64) -> i64 {
        let below = whole_of((square * 0.1).sqrt());
        let whole = square as i64;
        // The estimate is one too large at most, where the square is ten times that of a whole number.
        let below = below - i64::from(10 * below * below > whole);
        below + i64::from(10 * below * below < whole)
    }

    #[inline(always)]
    fn radius(least: f64) -> f64 {
        (least - 1.0) * 3.162_277_660_168_379
    }
}
