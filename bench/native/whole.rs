//! Checks, bounds and comparisons: each file is read in pieces, in one pass. What the program keeps is kept: weights in 8
//! bytes, points in billionths.

use crate::fail;
use crate::file::{Fields, Tours};
use crate::points::{self, Att, Ceiling, Metric, Nearest};
use crate::{matrix, tree};

/// The sum of the lengths of tours, by where nodes are and the cost from one to the next. With a depot, each tour begins
/// and ends there.
fn sum<P: Copy>(tours: &Tours, depot: Option<usize>, at: impl Fn(usize) -> P, cost: impl Fn(P, P) -> i64) -> i64 {
    let length = |tour: &[u32]| {
        let mut before = at(depot.unwrap_or(tour[tour.len() - 1] as usize - 1));
        let mut length = 0;
        for node in tour {
            let here = at(*node as usize - 1);
            length += cost(before, here);
            before = here;
        }
        length + depot.map_or(0, |depot| cost(before, at(depot)))
    };
    tours.iter().map(length).sum()
}

type Measure<'a> = Box<dyn Fn(&Tours) -> i64 + 'a>;

fn by_points<'a, M: Metric, const D: usize>(points: Vec<[i64; D]>, depot: Option<usize>) -> Measure<'a> {
    if !points::are_whole(&points) {
        return Box::new(move |tours| sum(tours, depot, |i| points[i], |a, b| M::exact(&a, &b)));
    }
    let near: Vec<[f64; D]> = points.iter().map(|it| it.map(|axis| (axis / points::UNIT) as f64)).collect();
    Box::new(move |tours| sum(tours, depot, |i| near[i], |a, b| M::whole(points::square(&a, &b))))
}

/// What measures the tours or routes of an instance.
fn measure(instance: &Fields) -> Measure<'_> {
    let (count, weights) = (instance.count, instance.weights.as_slice());
    let depot = instance.depots.first().map(|depot| *depot as usize - 1);
    match (instance.weight_type.as_str(), instance.layout.as_str()) {
        ("EXPLICIT", "FULL_MATRIX") => Box::new(move |tours| sum(tours, depot, |i| i, |i, j| weights[i * count + j])),
        ("EXPLICIT", "UPPER_ROW") => {
            Box::new(move |tours| sum(tours, depot, |i| i, |i, j| weights[matrix::upper_place(count, i, j)]))
        }
        ("EUC_2D", _) => by_points::<Nearest, 2>(plane(instance), depot),
        ("EUC_3D", _) => by_points::<Nearest, 3>(instance.points.clone(), depot),
        ("CEIL_2D", _) => by_points::<Ceiling, 2>(plane(instance), depot),
        ("ATT", _) => by_points::<Att, 2>(plane(instance), depot),
        _ => fail("the weight type"),
    }
}

/// Whether tours visit each of so many nodes once; `more` is visited too.
fn visits_all(count: usize, tours: &Tours, more: Option<u32>) -> bool {
    let (mut seen, mut visited) = (vec![false; count], 0);
    for node in tours.nodes.iter().chain(&more) {
        let place = node.wrapping_sub(1) as usize;
        if place >= count || std::mem::replace(&mut seen[place], true) {
            return false;
        }
        visited += 1;
    }
    visited == count
}

fn see_routes(instance: &Fields, routes: &Tours) {
    let [depot] = instance.depots[..] else { fail("DepotCount") };
    let demand = |node: &u32| instance.demands[*node as usize - 1];
    if !visits_all(instance.count, routes, Some(depot as u32)) {
        fail("not each customer once");
    }
    if routes.iter().any(|route| route.iter().map(demand).sum::<i64>() > instance.capacity) {
        fail("Overload");
    }
}

/// The length of a solution, which is accepted.
fn length(instance: &Fields, solution: &Fields, measure: &Measure) -> i64 {
    match instance.kind.as_str() {
        "CVRP" => see_routes(instance, &solution.tours),
        _ if solution.tours.ends.len() != 1 || !visits_all(instance.count, &solution.tours, None) => {
            fail("not each node once")
        }
        _ => (),
    }
    measure(&solution.tours)
}

/// The points of an instance in a plane.
pub fn plane(instance: &Fields) -> Vec<[i64; 2]> {
    instance.points.iter().map(|[x, y, _]| [*x, *y]).collect()
}

fn tree_weight(instance: &Fields, numbers: &[i64], scale: i64) -> i128 {
    let (count, weights) = (instance.count, &instance.weights);
    match (instance.weight_type.as_str(), instance.layout.as_str()) {
        ("EXPLICIT", "FULL_MATRIX") => matrix::full_tree(weights, count, numbers, scale),
        ("EXPLICIT", "UPPER_ROW") => matrix::upper_tree(weights, count, numbers, scale),
        ("EUC_2D", _) => tree::one_tree::<Nearest, 2>(&plane(instance), numbers, scale),
        ("CEIL_2D", _) => tree::one_tree::<Ceiling, 2>(&plane(instance), numbers, scale),
        ("ATT", _) => tree::one_tree::<Att, 2>(&plane(instance), numbers, scale),
        ("EUC_3D", _) => tree::one_tree::<Nearest, 3>(&instance.points, numbers, scale),
        _ => fail("the weight type"),
    }
}

fn value_of(instance: &Fields, certificate: &Fields) -> i128 {
    let scale = certificate.scale.unwrap_or(1);
    let value = if instance.kind == "ATSP" {
        if certificate.rows.len() != instance.count || certificate.columns.len() != instance.count {
            fail("Dimension");
        }
        matrix::duals(&instance.weights, scale, &certificate.rows, &certificate.columns)
    } else {
        if certificate.numbers.len() != instance.count {
            fail("Dimension");
        }
        let total: i128 = certificate.numbers.iter().map(|number| i128::from(*number)).sum();
        tree_weight(instance, &certificate.numbers, scale) - 2 * total
    };
    -(-value).div_euclid(i128::from(scale))
}

/// Reads an instance, and prints the first lines of its report.
fn head(path: &str) -> Fields {
    let instance = Fields::read(path);
    if instance.kind == "TSP"
        && instance.layout == "FULL_MATRIX"
        && !matrix::is_symmetric(&instance.weights, instance.count)
    {
        fail("NotSymmetric");
    }
    println!("type {}\nnodes {}", instance.kind, instance.count);
    instance
}

/// The report of a check, with the bound of a certificate if one is given.
pub fn check(path: &str, solution: &str, bound: Option<&dyn Fn(&Fields) -> i128>) {
    let (instance, solution) = (head(path), Fields::read(solution));
    if instance.kind == "CVRP" {
        let total: i64 = instance.demands.iter().sum();
        let least = (total + instance.capacity - 1) / instance.capacity;
        println!("routes {}\nleast {least}", solution.tours.ends.len());
    }
    let length = length(&instance, &solution, &measure(&instance));
    println!("length {length}");
    if let Some(bound) = bound.map(|bound| bound(&instance)) {
        let met =
            if i128::from(length) == bound { "optimal".into() } else { format!("gap {}", i128::from(length) - bound) };
        println!("bound {bound}\n{met}");
    }
    println!("yes");
}

/// The report of a bound.
pub fn bound(path: &str, certificate: &str) {
    let (instance, certificate) = (head(path), Fields::read(certificate));
    println!("bound {}\nyes", value_of(&instance, &certificate));
}

/// The report of a comparison.
pub fn compare(path: &str, solutions: &[&str]) {
    let instance = head(path);
    let measure = measure(&instance);
    for path in solutions {
        println!("{} {path}", length(&instance, &Fields::read(path), &measure));
    }
}
