//! Transactions of sixteen threads, some of which are broken off, late, left early or undone, and the serial order in
//! which they have the replies that they had.

mod shared;

use pickbracken::{Error, List, Locks, Stopped};
use shared::{A, B, LIMIT, groups, held, leaves, made};
use std::collections::{BTreeMap, BTreeSet, HashMap};
use std::env;
use std::panic::{AssertUnwindSafe, catch_unwind, resume_unwind};
use std::sync::atomic::{AtomicUsize, Ordering};
use std::sync::mpsc::{self, Sender};
use std::sync::{Arc, Mutex};
use std::thread;
use std::time::Duration;

const THREADS: usize = 16;
/// So many transactions a thread makes between two signs of life.
const SIGNS: usize = 100;

/// How many transactions there are; 200,000 in a soak.
fn transactions() -> usize {
    let given = env::var("GROVE_TRANSACTIONS").ok();
    given.map_or(10_000, |it| it.parse().expect("a number of transactions"))
}

/// A number, and the runs that were here, in their order.
#[derive(Clone, Default)]
struct Record {
    number: i64,
    visits: Vec<usize>,
}

/// What a run did: at each node so much was added, and that was replied.
struct Run {
    name: usize,
    done: Vec<(String, i64, i64)>,
}

impl Run {
    fn new(name: usize) -> Run {
        let done = Vec::new();
        Run { name, done }
    }

    fn add(&mut self, path: &str, amount: i64, record: &mut Record) {
        record.number += amount;
        record.visits.push(self.name);
        self.done.push((path.to_owned(), amount, record.number));
    }
}

/// What an access that fails says.
#[derive(Debug)]
struct Broken;

/// How a transaction is meant to end.
#[derive(Clone, Copy, PartialEq, Eq, PartialOrd, Ord)]
enum End {
    Whole,
    Undone,
    Broken,
    Panicked,
    Unfinished,
    Limited,
    Plain,
}

/// Numbers that look drawn.
struct Drawn(u64);

impl Drawn {
    fn below(&mut self, bound: usize) -> usize {
        self.0 = self
            .0
            .wrapping_mul(6364136223846793005)
            .wrapping_add(1442695040888963407);
        (self.0 >> 33) as usize % bound
    }

    fn end(&mut self) -> End {
        match self.below(100) {
            0 => End::Whole,
            1 => End::Undone,
            2 => End::Broken,
            3 => End::Panicked,
            4 => End::Unfinished,
            5..9 => End::Limited,
            _ => End::Plain,
        }
    }

    /// Two leaves most of the time; or up to six nodes, some of them twice, some of them above others.
    fn paths(&mut self, leaves: &[String], groups: &[String]) -> Vec<String> {
        if self.below(5) > 0 {
            let first = self.below(leaves.len());
            let second = (first + 1 + self.below(leaves.len() - 1)) % leaves.len();
            return vec![leaves[first].clone(), leaves[second].clone()];
        }
        let count = 1 + self.below(6);
        let mut one = || {
            let from = if self.below(5) > 0 { leaves } else { groups };
            from[self.below(from.len())].clone()
        };
        (0..count).map(|_| one()).collect()
    }
}

/// A transaction of a list, and what came of it.
struct Tried<'t> {
    locks: &'t Locks<Record>,
    list: List,
    paths: &'t [String],
    /// The access at which it ends, if it is to end before its end.
    stop: usize,
    run: Run,
}

impl Tried<'_> {
    fn end_by(&mut self, end: End, drawn: &mut Drawn) {
        match end {
            End::Plain => self.run_all(&self.list.clone()),
            End::Whole => self.run_all(&self.list.clone().whole()),
            End::Limited => {
                let limit = Duration::from_micros(drawn.below(1_000) as u64);
                self.run_all(&self.list.clone().timeout(limit));
            }
            End::Broken => self.break_off(),
            End::Panicked => self.panic_and_mend(),
            End::Unfinished => self.leave_early(),
            End::Undone => self.undo(),
        }
    }

    fn run_all(&mut self, list: &List) {
        let (paths, run) = (self.paths, &mut self.run);
        let ended = self.locks.run(list, |number, record| {
            if record.number % 64 == 63 {
                thread::yield_now();
            }
            run.add(&paths[number], 1 + number as i64, record);
        });
        if let Err(Error::TimedOut { done, .. } | Error::Poisoned { done, .. }) = ended {
            assert_eq!(done, self.run.done.len());
        } else {
            assert_eq!(ended.map(|it| it.len()), Ok(self.paths.len()));
        }
    }

    fn break_off(&mut self) {
        let (paths, run, stop) = (self.paths, &mut self.run, self.stop);
        let ended = self.locks.try_run(&self.list, |number, record| {
            run.add(&paths[number], 1, record);
            if number == stop { Err(Broken) } else { Ok(()) }
        });
        match ended {
            Err(Stopped::Call { number, .. }) => assert_eq!(number, stop),
            Err(Stopped::Locks(Error::Poisoned { done, .. })) => assert!(done <= stop),
            other => panic!("{other:?}"),
        }
    }

    /// Others may find the record poisoned, until it is mended.
    fn panic_and_mend(&mut self) {
        let (paths, run, stop) = (self.paths, &mut self.run, self.stop);
        let running = AssertUnwindSafe(|| {
            self.locks.run(&self.list, |number, record| {
                if number == stop {
                    resume_unwind(Box::new(Broken));
                }
                run.add(&paths[number], 1, record);
            })
        });
        match catch_unwind(running) {
            Err(_) => self.locks.mend(&self.paths[self.stop]).unwrap(),
            Ok(Err(Error::Poisoned { done, .. })) => assert!(done <= self.stop),
            Ok(other) => panic!("{other:?}"),
        }
    }

    fn leave_early(&mut self) {
        let mut transaction = self.locks.transaction(&self.list).unwrap();
        while transaction.done() < self.stop {
            match transaction.access() {
                Ok(Some(mut record)) => {
                    let number = record.number();
                    self.run.add(&self.paths[number], 1, &mut record);
                }
                ended => {
                    assert!(matches!(ended, Err(Error::Poisoned { .. })));
                    break;
                }
            }
        }
        let ended = transaction.finish();
        assert!(matches!(ended, Err(Error::Unfinished { .. })), "{ended:?}");
    }

    fn undo(&mut self) {
        let list = self.list.clone().whole();
        let mut transaction = self.locks.transaction(&list).unwrap();
        while transaction.done() <= self.stop {
            let Ok(Some(mut record)) = transaction.access() else {
                break;
            };
            let number = record.number();
            self.run.add(&self.paths[number], 1, &mut record);
        }
        for number in (0..transaction.done()).rev() {
            let mut record = transaction.again(number).expect("it is held");
            self.run.add(&self.paths[number], -1, &mut record);
        }
    }
}

/// What the threads have: locks, the runs that were made, and which ends they came to.
struct Work {
    locks: Locks<Record>,
    names: AtomicUsize,
    runs: Mutex<Vec<Run>>,
    ends: Mutex<BTreeSet<End>>,
}

impl Work {
    fn new() -> Work {
        Work {
            locks: made(Record::default()),
            names: AtomicUsize::new(0),
            runs: Mutex::default(),
            ends: Mutex::default(),
        }
    }

    fn run_some(&self, count: usize, drawn: &mut Drawn) {
        let (leaves, groups) = (leaves(), groups());
        for _ in 0..count {
            let (paths, end) = (drawn.paths(&leaves, &groups), drawn.end());
            let mut tried = Tried {
                locks: &self.locks,
                list: self.locks.list(&paths).unwrap(),
                paths: &paths,
                stop: drawn.below(paths.len()),
                run: self.begun(),
            };
            tried.end_by(end, drawn);
            self.runs.lock().unwrap().push(tried.run);
            self.ends.lock().unwrap().insert(end);
            if drawn.below(1_000) == 0 {
                self.locks.reweigh();
            }
        }
    }

    fn begun(&self) -> Run {
        Run::new(self.names.fetch_add(1, Ordering::Relaxed))
    }

    /// Why the records aren't what the runs leave in some order, one after the other; nothing if they are.
    fn fault(self) -> Option<String> {
        let runs = self.runs.into_inner().unwrap();
        let records: BTreeMap<String, Record> = self.locks.into_records().collect();
        let order = serial_order(runs.len(), &records);
        if order.len() < runs.len() {
            let circle = runs.len() - order.len();
            return Some(format!("{circle} runs were before one another"));
        }
        let by_name: HashMap<usize, &Run> = runs.iter().map(|run| (run.name, run)).collect();
        let mut numbers: HashMap<&str, i64> = HashMap::new();
        for (path, amount, reply) in order.iter().flat_map(|name| &by_name[name].done) {
            let number = numbers.entry(path).or_default();
            *number += amount;
            if number != reply {
                return Some(format!("at {path} {reply} was replied, and not {number}"));
            }
        }
        let left = |path: &str| numbers.get(path).copied().unwrap_or_default();
        let wrong = records.iter().find(|(path, it)| it.number != left(path));
        wrong.map(|(path, it)| format!("{path} has {} in the end", it.number))
    }
}

/// The names of so many runs, each behind those that were at one of its nodes before it; without those in a circle.
fn serial_order(runs: usize, records: &BTreeMap<String, Record>) -> Vec<usize> {
    let (mut after, mut waits) = (vec![Vec::new(); runs], vec![0; runs]);
    for record in records.values() {
        for pair in record.visits.windows(2).filter(|pair| pair[0] != pair[1]) {
            after[pair[0]].push(pair[1]);
            waits[pair[1]] += 1;
        }
    }
    let mut free: Vec<usize> = (0..runs).filter(|name| waits[*name] == 0).collect();
    let mut order = Vec::with_capacity(runs);
    while let Some(name) = free.pop() {
        order.push(name);
        for &later in &after[name] {
            waits[later] -= 1;
            if waits[later] == 0 {
                free.push(later);
            }
        }
    }
    order
}

/// Has each thread do its job, which gives signs of life now and then; none may be silent for long.
fn in_threads<S: Send + Sync + 'static>(
    count: usize,
    shared: &Arc<S>,
    job: impl Fn(usize, &S, &Sender<()>) + Send + Sync + 'static,
) {
    let (alive, signs) = mpsc::channel();
    let job = Arc::new(job);
    let each = |number| {
        let (job, shared, alive) = (Arc::clone(&job), Arc::clone(shared), alive.clone());
        thread::spawn(move || job(number, &shared, &alive))
    };
    let threads: Vec<_> = (0..count).map(each).collect();
    drop(alive);
    loop {
        match signs.recv_timeout(LIMIT) {
            Ok(()) => {}
            Err(mpsc::RecvTimeoutError::Disconnected) => break,
            Err(mpsc::RecvTimeoutError::Timeout) => panic!("no thread gets on"),
        }
    }
    for thread in threads {
        thread.join().expect("no thread fails");
    }
}

#[test]
fn runs_are_in_a_serial_order() {
    let (work, each) = (Arc::new(Work::new()), transactions() / THREADS);
    in_threads(THREADS, &work, move |thread, work, alive| {
        let mut drawn = Drawn(thread as u64 + 1);
        for made in (0..each).step_by(SIGNS) {
            work.run_some(SIGNS.min(each - made), &mut drawn);
            alive.send(()).unwrap();
        }
    });
    let work = Arc::into_inner(work).expect("all threads have ended");
    assert_eq!(held(&work.locks), [""; 0]);
    assert_eq!(work.ends.lock().unwrap().len(), 7);
    assert_eq!(work.runs.lock().unwrap().len(), each * THREADS);
    assert_eq!(work.fault(), None);
}

/// The locks can't be had not to lock, since nobody comes at a record otherwise. But of two runs that are no
/// transactions one may be before the other at one node, and behind it at the next.
#[test]
fn nodes_that_are_let_go_between_are_seen() {
    let work = Work::new();
    let (mut first, mut second) = (work.begun(), work.begun());
    for (path, run) in [(A, 0), (A, 1), (B, 1), (B, 0)] {
        let run = if run == 0 { &mut first } else { &mut second };
        let list = work.locks.list([path]).unwrap();
        let done = work.locks.run(&list, |_, record| run.add(path, 1, record));
        assert_eq!(done, Ok(vec![()]));
    }
    work.runs.lock().unwrap().extend([first, second]);
    let fault = work.fault();
    assert_eq!(fault.as_deref(), Some("2 runs were before one another"));
}
