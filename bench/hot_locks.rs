//! Runs jobs by `Locks` of bindings/rust, by as many workers as its argument says. Their plans are made before.
//!
//! The first line has the number of nodes. As many lines follow, each with a weight and a path, in the tree's order.
//! Each line behind these has the paths that a job accesses, each for a millisecond. The program prints
//! what bench/hot.rs prints.

use pickbracken::{List, Locks};
use std::env;
use std::error::Error;
use std::io;
use std::sync::Barrier;
use std::sync::atomic::{AtomicUsize, Ordering};
use std::thread;
use std::time::{Duration, Instant};

/// How long an access takes.
const SLOT: Duration = Duration::from_millis(1);

fn main() -> Result<(), Box<dyn Error>> {
    let workers = env::args().nth(1).ok_or("usage: hot_locks WORKERS")?.parse()?;
    let text = io::read_to_string(io::stdin())?;
    let mut lines = text.lines();
    let count = lines.next().ok_or("no number of nodes")?.parse()?;
    let weights: Vec<_> = lines.by_ref().take(count).map(weight_of).collect::<Result<_, _>>()?;
    let locks = Locks::new(weights, |_| 0)?;
    let lists: Vec<List> = lines.map(|line| locks.list(line.split(' '))).collect::<Result<_, _>>()?;
    lists.iter().try_for_each(|list| locks.transaction(list).map(drop))?;
    println!("{}", run(&locks, &lists, workers).ok_or("no workers")?.as_nanos());
    let records: Vec<String> = locks.into_records().map(|(_, record)| record.to_string()).collect();
    println!("{}", records.join(" "));
    Ok(())
}

fn weight_of(line: &str) -> Result<(&str, u32), Box<dyn Error>> {
    let (weight, path) = line.split_once(' ').ok_or("a weight without a path")?;
    Ok((path, weight.parse()?))
}

/// How long all jobs take, from the first worker's start to the last one's end.
fn run(locks: &Locks<u64>, lists: &[List], workers: usize) -> Option<Duration> {
    let claimed = AtomicUsize::new(0);
    let all_there = Barrier::new(workers);
    let begin = || {
        all_there.wait();
        work(locks, lists, &claimed)
    };
    let spells: Vec<_> = thread::scope(|scope| {
        let started: Vec<_> = (0..workers).map(|_| scope.spawn(begin)).collect();
        started.into_iter().map(|worker| worker.join().expect("no worker panics")).collect()
    });
    let began = spells.iter().map(|spell| spell.0).min()?;
    let ended = spells.iter().map(|spell| spell.1).max()?;
    Some(ended - began)
}

/// Claims job after job and does it, until none is left; when it began and ended.
fn work(locks: &Locks<u64>, lists: &[List], claimed: &AtomicUsize) -> (Instant, Instant) {
    let began = Instant::now();
    while let Some(list) = lists.get(claimed.fetch_add(1, Ordering::SeqCst)) {
        let add = |_: usize, record: &mut u64| {
            thread::sleep(SLOT);
            *record += 1;
        };
        locks.run(list, add).expect("it is a list of these locks");
    }
    (began, Instant::now())
}
