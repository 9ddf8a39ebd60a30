//! What the program is measured against: checks, bounds and comparisons in plain Rust, by hand for speed. It is as exact as the
//! program, and prints the same.
//!
//! usage: native check INSTANCE SOLUTION [--branches FILE]
//!        native bound INSTANCE --potentials FILE
//!        native compare INSTANCE SOLUTION..
//!
//! bench/whole, bench/trees and bench/compare build it by rustc, and end if it prints anything else than the program. It is for
//! files without faults, with plain numbers, and for solutions and certificates that are accepted. All else ends it with
//! status 2, but what is wrong with a tree of cases isn't looked for.

mod branches;
mod file;
mod matrix;
mod points;
mod routes;
mod runs;
mod text;
mod tree;
mod whole;

use file::Fields;
use std::env;

#[cold]
fn fail(why: &str) -> ! {
    eprintln!("native: {why}");
    std::process::exit(2)
}

/// The bound of a tree of cases.
fn tree_bound(instance: &Fields, path: &str) -> i128 {
    let certificate = Fields::read(path);
    if instance.kind == "CVRP" {
        routes::bound(instance, &certificate)
    } else {
        branches::bound(instance, &certificate)
    }
}

fn main() {
    let words: Vec<String> = env::args().skip(1).collect();
    let words: Vec<&str> = words.iter().map(String::as_str).collect();
    match words[..] {
        ["check", instance, solution] => whole::check(instance, solution, None),
        ["check", instance, solution, "--branches", path] => {
            whole::check(instance, solution, Some(&|instance| tree_bound(instance, path)));
        }
        ["bound", instance, "--potentials", certificate] => whole::bound(instance, certificate),
        ["compare", instance, ref solutions @ ..] => whole::compare(instance, solutions),
        _ => fail(
            "check INSTANCE SOLUTION [--branches FILE], bound INSTANCE --potentials FILE, or compare INSTANCE SOLUTION..",
        ),
    }
}
