//! Transactions of a thousand tasks, some of which are cancelled, late, left early or undone.

use pickbracken_tokio::{Error, List, Locks};
use std::env;
use std::sync::Arc;
use std::sync::atomic::{AtomicI64, AtomicUsize, Ordering};
use std::time::Duration;
use tokio::runtime::{Builder, Runtime};
use tokio::task::yield_now;
use tokio::time::{sleep, timeout};

const TASKS: usize = 1_000;
const A: &str = "/g0/leaf0";
const B: &str = "/g1/leaf1";
/// No ten thousand transactions take as long.
const LIMIT: Duration = Duration::from_secs(120);

/// How many transactions there are; 200,000 in a soak.
fn transactions() -> usize {
    let given = env::var("GROVE_TRANSACTIONS").ok();
    given.map_or(10_000, |it| it.parse().expect("a number of transactions"))
}

fn runtime() -> Runtime {
    let mut builder = Builder::new_multi_thread();
    builder.worker_threads(4).enable_time().build().unwrap()
}

fn leaves() -> Vec<String> {
    (0..64)
        .map(|number| format!("/g{}/leaf{number}", number % 8))
        .collect()
}

fn made() -> Locks<i64> {
    let groups: Vec<String> = (0..8).map(|number| format!("/g{number}")).collect();
    let leaves = leaves();
    let groups = groups.iter().map(|path| (path.as_str(), 8));
    let all = [("/", 64)].into_iter().chain(groups);
    let all = all.chain(leaves.iter().map(|path| (path.as_str(), 1)));
    Locks::new(all, |_| 0).unwrap()
}

/// The nodes that somebody holds.
async fn held(locks: &Locks<i64>) -> Vec<String> {
    let mut held = Vec::new();
    for (path, _) in locks.weights() {
        let list = locks.list([path]).unwrap().timeout(Duration::ZERO);
        match locks.transaction(&list).unwrap().access().await {
            Ok(record) => assert!(record.is_some()),
            Err(Error::TimedOut { .. }) => held.push(path.to_owned()),
            Err(other) => panic!("{other}"),
        }
    }
    held
}

async fn sum(locks: &Locks<i64>) -> i64 {
    let mut sum = 0;
    for (path, _) in locks.weights() {
        let list = locks.list([path]).unwrap();
        let mut transaction = locks.transaction(&list).unwrap();
        sum += *transaction.access().await.unwrap().unwrap();
    }
    sum
}

struct Drawn(u64);

impl Drawn {
    fn below(&mut self, bound: usize) -> usize {
        self.0 = self.0.wrapping_mul(6364136223846793005);
        self.0 = self.0.wrapping_add(1442695040888963407);
        (self.0 >> 33) as usize % bound
    }
}

/// What the tasks have in common: the sum of what was added, and how often each end was come to.
struct Work {
    locks: Locks<i64>,
    leaves: Vec<String>,
    added: AtomicI64,
    ends: [AtomicUsize; 6],
}

impl Work {
    fn list(&self, drawn: &mut Drawn) -> List {
        let count = 1 + drawn.below(4);
        let paths = (0..count).map(|_| self.leaves[drawn.below(64)].as_str());
        self.locks.list(paths).unwrap()
    }

    /// Adds one at each node, to a stop before this access, and waits in between.
    async fn add_to(&self, list: &List, stop: usize) -> Result<usize, Error> {
        let mut transaction = self.locks.transaction(list)?;
        while transaction.done() < stop {
            let Some(mut record) = transaction.access().await? else {
                break;
            };
            *record += 1;
            self.added.fetch_add(1, Ordering::Relaxed);
            yield_now().await;
        }
        Ok(transaction.done())
    }

    async fn undo(&self, list: &List) -> Result<usize, Error> {
        let list = list.clone().whole();
        let mut transaction = self.locks.transaction(&list)?;
        while let Some(mut record) = transaction.access().await? {
            *record += 1;
        }
        for number in 0..transaction.done() {
            *transaction.again(number).expect("it is held") -= 1;
        }
        Ok(transaction.done())
    }

    async fn run_one(&self, drawn: &mut Drawn) {
        let (list, end) = (self.list(drawn), drawn.below(20));
        let limit = Duration::from_micros(drawn.below(2_000) as u64);
        let came = match end {
            0 => match timeout(limit, self.add_to(&list, 64)).await {
                Ok(ended) => ended.map(|_| 0),
                Err(_) => Ok(1),
            },
            1 => match self.add_to(&list.timeout(limit), 64).await {
                Err(Error::TimedOut { .. }) => Ok(2),
                other => other.map(|_| 0),
            },
            2 => self.add_to(&list, drawn.below(2)).await.map(|_| 3),
            3 => self.undo(&list).await.map(|_| 4),
            4 => self.add_to(&list.whole(), 64).await.map(|_| 5),
            _ => self.add_to(&list, 64).await.map(|_| 0),
        };
        self.ends[came.unwrap()].fetch_add(1, Ordering::Relaxed);
        if drawn.below(500) == 0 {
            self.locks.reweigh().unwrap();
        }
    }
}

#[test]
fn no_access_is_lost_and_nothing_is_held_in_the_end() {
    let work = Arc::new(Work {
        locks: made(),
        leaves: leaves(),
        added: AtomicI64::new(0),
        ends: Default::default(),
    });
    let each = transactions().div_ceil(TASKS);
    let limit = LIMIT * (1 + each as u32 / 10);
    runtime().block_on(async {
        let tasks: Vec<_> = (0..TASKS)
            .map(|task| {
                let work = Arc::clone(&work);
                tokio::spawn(async move {
                    let mut drawn = Drawn(task as u64);
                    for _ in 0..each {
                        work.run_one(&mut drawn).await;
                    }
                })
            })
            .collect();
        for task in tasks {
            timeout(limit, task)
                .await
                .expect("a task waits on")
                .unwrap();
        }
        assert_eq!(held(&work.locks).await, [""; 0]);
        assert_eq!(sum(&work.locks).await, work.added.load(Ordering::Relaxed));
    });
    let ends: Vec<usize> = work
        .ends
        .iter()
        .map(|it| it.load(Ordering::Relaxed))
        .collect();
    assert_eq!(ends.iter().sum::<usize>(), each * TASKS);
    assert!(ends.iter().all(|count| *count > 0), "{ends:?}");
    println!("all, cancelled, late, left early, undone, whole: {ends:?}");
}

#[test]
fn a_cancelled_task_leaves_the_queue() {
    runtime().block_on(async {
        let locks = Arc::new(made());
        let (pair, alone) = (locks.list([A, B]).unwrap(), locks.list([B]).unwrap());
        let mut first = locks.transaction(&alone).unwrap();
        *first.access().await.unwrap().unwrap() += 1;
        let waiting = tokio::spawn({
            let (locks, pair) = (Arc::clone(&locks), pair.clone());
            async move {
                let mut transaction = locks.transaction(&pair).unwrap();
                while transaction.access().await.unwrap().is_some() {}
            }
        });
        while locks.waits().is_empty() {
            sleep(Duration::from_millis(1)).await;
        }
        waiting.abort();
        assert!(waiting.await.unwrap_err().is_cancelled());
        assert_eq!(held(&locks).await, [B]);
        drop(first);
        assert_eq!(held(&locks).await, [""; 0]);
        assert_eq!(sum(&locks).await, 1);
    });
}

#[test]
fn what_is_not_had_in_time_is_told_and_may_be_tried_again() {
    runtime().block_on(async {
        let locks = made();
        let alone = locks.list([B]).unwrap();
        let mut first = locks.transaction(&alone).unwrap();
        first.access().await.unwrap();
        let list = locks
            .list([A, B])
            .unwrap()
            .timeout(Duration::from_millis(20));
        let mut late = locks.transaction(&list).unwrap();
        let why = loop {
            match late.access().await {
                Ok(Some(mut record)) => *record += 1,
                Ok(None) => panic!("it was had"),
                Err(why) => break why,
            }
        };
        assert!(
            matches!(&why, Error::TimedOut { path, .. } if path == B),
            "{why}"
        );
        drop(first);
        while late.access().await.unwrap().is_some() {}
        late.finish().unwrap();
        assert_eq!(held(&locks).await, [""; 0]);
    });
}

#[test]
fn what_is_no_transaction_is_refused() {
    runtime().block_on(async {
        let (locks, other) = (made(), made());
        let list = locks.list([A, B]).unwrap();
        assert_eq!(other.transaction(&list).unwrap_err(), Error::Foreign);
        let refused = locks.list([(A, 0)]).unwrap_err();
        assert_eq!(refused.to_string(), "refused bad-length list 0");
        let refused = locks.list(["/none"]).unwrap_err();
        assert_eq!(refused.to_string(), "refused no-path list 0");
        let mut left = locks.transaction(&list).unwrap();
        left.access().await.unwrap();
        let refused = left.finish().unwrap_err();
        assert_eq!(refused.to_string(), "1 of 2 accesses were begun");
        assert_eq!(held(&locks).await, [""; 0]);
    });
}

#[test]
fn waits_make_weights() {
    runtime().block_on(async {
        let locks = made();
        let list = locks.list([A]).unwrap();
        let mut first = locks.transaction(&list).unwrap();
        first.access().await.unwrap();
        assert_eq!(held(&locks).await, [A]);
        assert_eq!(locks.waits(), [(A, 1)]);
        assert_eq!(locks.reweigh().unwrap(), 10);
        let weights = locks.weights();
        assert_eq!((weights[0], locks.waits().len()), (("/", 32), 0));
        drop(first);
        // The list has a plan by the new weights.
        let mut second = locks.transaction(&list).unwrap();
        assert!(second.access().await.unwrap().is_some());
    });
}
