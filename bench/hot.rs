//! Runs jobs by the plans that it reads, by as many workers as its argument says, with a lock for each node and nothing
//! else: no core, no history. A worker that finds a node held sleeps in its queue.
//!
//! The first line has the number of nodes, and each further line the steps of a job: `lock:0 access:0 unlock:0`. It
//! prints the nanoseconds from the first worker's start to the last one's end, and below them the records of all nodes,
//! which have to be the numbers of accesses. It ends with a failure at an access or an unlock of a node that the job
//! doesn't hold.
use std::env;
use std::error::Error;
use std::io;
use std::str::FromStr;
use std::sync::atomic::{AtomicUsize, Ordering};
use std::sync::{Barrier, Condvar, Mutex, MutexGuard};
use std::thread;
use std::time::{Duration, Instant};

/// How long an access takes.
const SLOT: Duration = Duration::from_millis(1);

#[derive(Clone, Copy)]
enum Step {
    Lock(usize),
    Unlock(usize),
    Access(usize),
}

impl FromStr for Step {
    type Err = Box<dyn Error>;

    fn from_str(text: &str) -> Result<Self, Self::Err> {
        let (kind, node) = text.split_once(':').ok_or("a step without a node")?;
        let node = node.parse()?;
        match kind {
            "lock" => Ok(Step::Lock(node)),
            "unlock" => Ok(Step::Unlock(node)),
            "access" => Ok(Step::Access(node)),
            _ => Err(format!("a step of no kind: {text}").into()),
        }
    }
}

#[derive(Default)]
struct State {
    holder: Option<usize>,
    record: u64,
}

#[derive(Default)]
struct Node {
    state: Mutex<State>,
    let_go: Condvar,
}

impl Node {
    fn lock(&self, job: usize) {
        let state = self.state.lock().unwrap();
        let mut free = self.let_go.wait_while(state, |state| state.holder.is_some()).unwrap();
        free.holder = Some(job);
    }

    fn unlock(&self, job: usize) {
        self.held_by(job).holder = None;
        self.let_go.notify_one();
    }

    /// Adds 1 to the record, which takes a slot. Between reading and writing it only the node's lock keeps others out.
    fn access(&self, job: usize) {
        let record = self.held_by(job).record;
        thread::sleep(SLOT);
        self.held_by(job).record = record + 1;
    }

    fn held_by(&self, job: usize) -> MutexGuard<'_, State> {
        let state = self.state.lock().unwrap();
        assert_eq!(state.holder, Some(job), "a job has a step at a node that it doesn't hold");
        state
    }
}

/// When a worker began and ended.
struct Spell {
    began: Instant,
    ended: Instant,
}

fn do_job(job: usize, plan: &[Step], nodes: &[Node]) {
    for step in plan {
        match *step {
            Step::Lock(node) => nodes[node].lock(job),
            Step::Unlock(node) => nodes[node].unlock(job),
            Step::Access(node) => nodes[node].access(job),
        }
    }
}

/// Claims job after job and does it, until none is left.
fn work(plans: &[Vec<Step>], nodes: &[Node], claimed: &AtomicUsize) -> Spell {
    let began = Instant::now();
    loop {
        let job = claimed.fetch_add(1, Ordering::SeqCst);
        let Some(plan) = plans.get(job) else {
            return Spell { began, ended: Instant::now() };
        };
        do_job(job, plan, nodes);
    }
}

/// The workers' spells, of which none begins before all workers are there.
fn run(plans: &[Vec<Step>], nodes: &[Node], workers: usize) -> Vec<Spell> {
    let claimed = AtomicUsize::new(0);
    let all_there = Barrier::new(workers);
    let begin = || {
        all_there.wait();
        work(plans, nodes, &claimed)
    };
    thread::scope(|scope| {
        let started: Vec<_> = (0..workers).map(|_| scope.spawn(begin)).collect();
        started.into_iter().map(|worker| worker.join().unwrap()).collect()
    })
}

fn time_of(spells: &[Spell]) -> Option<Duration> {
    let began = spells.iter().map(|spell| spell.began).min()?;
    let ended = spells.iter().map(|spell| spell.ended).max()?;
    Some(ended - began)
}

fn plan_of(line: &str) -> Result<Vec<Step>, Box<dyn Error>> {
    line.split(' ').map(str::parse).collect()
}

fn main() -> Result<(), Box<dyn Error>> {
    let workers = env::args().nth(1).ok_or("usage: hot WORKERS")?.parse()?;
    let text = io::read_to_string(io::stdin())?;
    let mut lines = text.lines();
    let count: usize = lines.next().ok_or("no number of nodes")?.parse()?;
    let plans: Vec<Vec<Step>> = lines.map(plan_of).collect::<Result<_, _>>()?;
    let nodes: Vec<Node> = (0..count).map(|_| Node::default()).collect();
    let spent = time_of(&run(&plans, &nodes, workers)).ok_or("no workers")?;
    println!("{}", spent.as_nanos());
    let records: Vec<String> = nodes.iter().map(|node| node.state.lock().unwrap().record.to_string()).collect();
    println!("{}", records.join(" "));
    Ok(())
}
