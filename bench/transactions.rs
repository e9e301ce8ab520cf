//! The part of bench/library.py in Rust that times transactions: two of 64 leaves each, which do next to nothing.
//!
//! Printed is a line for each way, with its name, a tab, and the nanoseconds that a transaction takes in each run.

use pickbracken::{Error, List, Locks};
use std::env;
use std::sync::{Barrier, Mutex};
use std::thread;
use std::time::Instant;

const LEAVES: usize = 64;
const GROUPS: usize = 8;
const LISTS: usize = 400;
const THREADS: usize = 16;
/// So many transactions each of the threads makes in a run.
const EACH: usize = 2_000;

fn main() -> Result<(), Box<dyn std::error::Error>> {
    let runs = env::args().nth(1).ok_or("usage: transactions RUNS")?.parse()?;
    let bench = Bench::new()?;
    let ways: [(&str, &(dyn Fn(usize) + Sync)); 2] =
        [("sorted mutexes", &|number| bench.sorted(number)), ("planned", &|number| bench.planned(number))];
    for (count, name) in [(1, "Rust, a thread"), (THREADS, "Rust, 16 threads")] {
        let mut times = ways.map(|_| Vec::with_capacity(runs));
        for _ in 0..runs {
            for ((_, way), times) in ways.iter().zip(&mut times) {
                times.push(nanoseconds(count, way));
            }
        }
        for ((way, _), times) in ways.iter().zip(times) {
            print_times(&format!("{name}, {way}"), &times);
        }
    }
    let firsts: Result<Vec<_>, Error> = (0..runs).map(|_| first_times()).collect();
    let (new, known): (Vec<f64>, Vec<f64>) = firsts?.into_iter().unzip();
    print_times("Rust, a new shape", &new);
    print_times("Rust, a known shape", &known);
    Ok(())
}

fn print_times(name: &str, times: &[f64]) {
    let times: Vec<String> = times.iter().map(f64::to_string).collect();
    println!("{name}\t{}", times.join(" "));
}

/// What a transaction takes that so many threads make side by side, from when the first begins until the last ends.
fn nanoseconds(count: usize, way: &(dyn Fn(usize) + Sync)) -> f64 {
    let start = Barrier::new(count);
    let timed = &|thread: usize| {
        start.wait();
        let begun = Instant::now();
        (0..EACH).for_each(|turn| way((131 * thread + turn) % LISTS));
        (begun, Instant::now())
    };
    let times: Vec<_> = thread::scope(|scope| {
        let threads: Vec<_> = (0..count).map(|thread| scope.spawn(move || timed(thread))).collect();
        threads.into_iter().map(|it| it.join().expect("no thread panics")).collect()
    });
    let (begun, ended) = (times.iter().map(|it| it.0).min(), times.iter().map(|it| it.1).max());
    let whole = ended.zip(begun).map_or(0, |(ended, begun)| (ended - begun).as_nanos());
    whole as f64 / (count * EACH) as f64
}

/// The same pairs of leaves with locks of the two, and by plans that are kept.
struct Bench {
    pairs: Vec<(usize, usize)>,
    mutexes: Vec<Mutex<i64>>,
    locks: Locks<i64>,
    lists: Vec<List>,
}

impl Bench {
    fn new() -> Result<Bench, Error> {
        let (pairs, locks) = (pairs(), locks()?);
        let list = |&(from, to): &(usize, usize)| locks.list([&leaf(from), &leaf(to)]);
        let lists: Result<Vec<List>, Error> = pairs.iter().map(list).collect();
        let mutexes = (0..LEAVES).map(|_| Mutex::new(0)).collect();
        Ok(Bench { lists: lists?, pairs, mutexes, locks })
    }

    fn sorted(&self, number: usize) {
        let (from, to) = self.pairs[number];
        let mut low = self.mutexes[from.min(to)].lock().expect("no thread panics");
        let mut high = self.mutexes[from.max(to)].lock().expect("no thread panics");
        *low += 1;
        *high += 1;
    }

    fn planned(&self, number: usize) {
        self.locks.run(&self.lists[number], |_, record| *record += 1).expect("it is a list");
    }
}

/// What it takes until a list is run that wasn't before: of a shape that wasn't planned either, and that was.
fn first_times() -> Result<(f64, f64), Error> {
    let locks = locks()?;
    let mut times = [0.0; 2];
    for (time, pair) in times.iter_mut().zip([[0, 1], [2, 3]]) {
        let paths = pair.map(leaf);
        let begun = Instant::now();
        locks.run(&locks.list(&paths)?, |_, record| *record += 1)?;
        *time = begun.elapsed().as_nanos() as f64;
    }
    Ok((times[0], times[1]))
}

/// The tree of bench/library.py.
fn locks() -> Result<Locks<i64>, Error> {
    let groups = (0..GROUPS).map(|number| (format!("/g{number}"), 8));
    let leaves = (0..LEAVES).map(|number| (leaf(number), 1));
    Locks::new([("/".to_owned(), 64)].into_iter().chain(groups).chain(leaves), |_| 0)
}

fn leaf(number: usize) -> String {
    format!("/g{}/leaf{number}", number % GROUPS)
}

/// Pairs of leaves that look drawn.
fn pairs() -> Vec<(usize, usize)> {
    let mut state = 9_u64;
    let mut below = |bound: usize| {
        state = state.wrapping_mul(6364136223846793005).wrapping_add(1442695040888963407);
        (state >> 33) as usize % bound
    };
    let mut pair = || {
        let from = below(LEAVES);
        (from, (from + 1 + below(LEAVES - 1)) % LEAVES)
    };
    (0..LISTS).map(|_| pair()).collect()
}
