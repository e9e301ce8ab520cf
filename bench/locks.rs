//! The batches of jobs that bench/batches.py has `grove_bench` run, by the same plans, with a Mutex a node and nothing
//! else: no core, no history, no serial order. Each line has what was done, by how many workers, and the nanoseconds.
//! Each is done once before, so that what is timed is warm.
use std::hint::black_box;
use std::sync::atomic::{AtomicUsize, Ordering};
use std::sync::{Mutex, MutexGuard};
use std::thread;
use std::time::Instant;

const BATCH: usize = 256;
const SHORT_RUNS: usize = 200;
const LONG_RUNS: usize = 5;
const CHAINS: usize = 64;
const DEPTH: usize = 32;
const SHOPS: usize = 63;
const SHELVES: usize = 64;

#[derive(Clone, Copy)]
enum Step {
    Lock(usize),
    Unlock(usize),
    Access(usize),
}

/// The nodes that a job adds 1 to, and its plan.
struct Job {
    list: Vec<usize>,
    plan: Vec<Step>,
}

/// One access each, no two at the same shelf.
fn short_jobs() -> Vec<Job> {
    let job = |number: usize| {
        let shelf = 2 + number % SHOPS * (SHELVES + 1) + number / SHOPS;
        Job { list: vec![shelf], plan: vec![Step::Lock(shelf), Step::Access(0), Step::Unlock(shelf)] }
    };
    (0..BATCH).map(job).collect()
}

/// 64 accesses each, at the ends of chains below the root that are gone down one after the other.
fn long_job() -> Job {
    let first = |chain: usize| chain * DEPTH + 1;
    let mut plan = vec![Step::Lock(0)];
    plan.extend((0..CHAINS).map(|chain| Step::Lock(first(chain))));
    plan.push(Step::Unlock(0));
    for chain in 0..CHAINS {
        for level in 1..DEPTH {
            plan.push(Step::Lock(first(chain) + level));
            plan.push(Step::Unlock(first(chain) + level - 1));
        }
        plan.push(Step::Access(chain));
        plan.push(Step::Unlock(first(chain) + DEPTH - 1));
    }
    Job { list: (1..=CHAINS).map(|chain| chain * DEPTH).collect(), plan }
}

fn do_job<'a>(job: &Job, records: &'a [Mutex<i64>], held: &mut [Option<MutexGuard<'a, i64>>]) -> Vec<i64> {
    let mut replies = Vec::with_capacity(job.list.len());
    for step in &job.plan {
        match *step {
            Step::Lock(node) => held[node] = Some(records[node].lock().unwrap()),
            Step::Unlock(node) => held[node] = None,
            Step::Access(access) => {
                let record = held[job.list[access]].as_mut().unwrap();
                **record += 1;
                replies.push(**record);
            }
        }
    }
    replies
}

fn run(jobs: &[Job], nodes: usize, workers: usize) -> usize {
    let records: Vec<Mutex<i64>> = (0..nodes).map(|_| Mutex::new(0)).collect();
    let claimed = AtomicUsize::new(0);
    let replies = AtomicUsize::new(0);
    let work = || {
        let mut held: Vec<Option<MutexGuard<i64>>> = (0..nodes).map(|_| None).collect();
        while let Some(job) = jobs.get(claimed.fetch_add(1, Ordering::SeqCst)) {
            replies.fetch_add(do_job(job, &records, &mut held).len(), Ordering::SeqCst);
        }
    };
    thread::scope(|scope| {
        for _ in 1..workers {
            scope.spawn(work);
        }
        work();
    });
    replies.into_inner()
}

fn time_run(jobs: &[Job], nodes: usize, workers: usize) -> u128 {
    let since = Instant::now();
    black_box(run(jobs, nodes, workers));
    since.elapsed().as_nanos()
}

fn time(what: &str, jobs: &[Job], nodes: usize, runs: usize) {
    for workers in [1, 2, 4] {
        run(jobs, nodes, workers);
        let spent: Vec<u128> = (0..runs).map(|_| time_run(jobs, nodes, workers)).collect();
        for time in spent {
            println!("{what} {workers} {time}");
        }
    }
}

fn main() {
    time("run-short", &short_jobs(), 1 + SHOPS * (SHELVES + 1), SHORT_RUNS);
    let long: Vec<Job> = (0..BATCH).map(|_| long_job()).collect();
    time("run-long", &long, 1 + CHAINS * DEPTH, LONG_RUNS);
}
