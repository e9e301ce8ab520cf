//! The part of bench/library.py in Rust: times plans of a list by document, over a tree, and kept ones.
//!
//! Standard input has lines `node PATH WEIGHT`, `get PATH LENGTH` and `document TEXT`. Printed are the plan's cost, and
//! for each way a line with its name, a tab, and the nanoseconds of each run.

use pickbracken::{Access, Error, Tree, document};
use std::env;
use std::io;
use std::time::Instant;

/// A kept plan is found so often in a run.
const FINDS: usize = 100;
/// A list has another plan if this access lasts longer, and that plan isn't kept yet.
const VARIED: usize = 0;
/// Trees of which all but the root and its children are leaves: so many children, with so many leaves each.
const WIDE: [(&str, usize); 2] = [("5,000", 70), ("1,000,000", 1_000)];

fn main() -> Result<(), Box<dyn std::error::Error>> {
    let runs: usize = env::args().nth(1).ok_or("usage: library RUNS")?.parse()?;
    let text = io::read_to_string(io::stdin())?;
    let mut nodes = Vec::new();
    let mut list = Vec::new();
    let mut whole = "";
    for line in text.lines() {
        let (kind, rest) = line.split_once(' ').ok_or("no line of a case")?;
        match (kind, rest.split_once(' ')) {
            ("node", Some((path, weight))) => nodes.push((path, weight.parse()?)),
            ("get", Some((path, length))) => list.push(Access::get(path).lasting(length.parse()?)),
            _ => whole = rest,
        }
    }
    if nodes.is_empty() {
        return Ok(print_wide(runs)?);
    }
    let tree = Tree::from_paths(nodes)?;
    println!("cost {}", tree.plan(&list)?.cost());
    print_times("by document", runs, |_| document::plan(whole.as_bytes()).map(drop))?;
    print_new("a list that is new", runs, &tree, &mut list.clone())?;
    print_kept("a kept plan", runs, &tree, &list)?;
    Ok(())
}

/// Four accesses over trees of different sizes, of which the ways down have as many nodes.
fn print_wide(runs: usize) -> Result<(), Error> {
    for (name, count) in WIDE {
        let path = |leaf: usize| format!("/g{}/leaf{}", leaf / count, leaf % count);
        let paths: Vec<String> = (0..count * count).map(path).collect();
        let tree = Tree::from_paths(paths.iter().map(|path| (path.as_str(), 1)))?;
        let places = [1, 2, 3, 4].map(|fifth| fifth * paths.len() / 5);
        let mut list = places.map(|place| Access::get(&paths[place]));
        print_new(&format!("{name} nodes, a list that is new"), runs, &tree, &mut list)?;
        print_kept(&format!("{name} nodes, a kept plan"), runs, &tree, &list)?;
    }
    Ok(())
}

fn print_new(name: &str, runs: usize, tree: &Tree, list: &mut [Access]) -> Result<(), Error> {
    print_times(name, runs, |run| {
        list[VARIED].length = 2 + run as u64 % 999;
        tree.plan(list)?;
        Ok(())
    })
}

fn print_kept(name: &str, runs: usize, tree: &Tree, list: &[Access]) -> Result<(), Error> {
    print_many(name, runs, FINDS, |_| tree.plan(list).map(drop))
}

fn print_times(
    name: &str,
    runs: usize,
    way: impl FnMut(usize) -> Result<(), Error>,
) -> Result<(), Error> {
    print_many(name, runs, 1, way)
}

/// Prints what a call takes, of so many in a run.
fn print_many(
    name: &str,
    runs: usize,
    calls: usize,
    mut way: impl FnMut(usize) -> Result<(), Error>,
) -> Result<(), Error> {
    let mut times = Vec::with_capacity(runs);
    for run in 0..runs {
        let begun = Instant::now();
        for _ in 0..calls {
            way(run)?;
        }
        times.push((begun.elapsed().as_nanos() as f64 / calls as f64).to_string());
    }
    println!("{name}\t{}", times.join(" "));
    Ok(())
}
