//! Transactions over locks of their program.

mod shared;

use pickbracken::{Access, Error, FaultKind, List, Locks, Step, Stopped, Tree, Wanted};
use shared::{A, B, LIMIT, held, is_held, made, weights};
use std::collections::BTreeSet;
use std::panic::{AssertUnwindSafe, catch_unwind, resume_unwind};
use std::sync::{Arc, mpsc};
use std::thread;
use std::time::{Duration, Instant};

/// A leaf of a third group.
const C: &str = "/g2/leaf2";

/// What an access that fails says.
#[derive(Clone, Debug, PartialEq, Eq)]
struct Broken;

fn nothing<T>(_: usize, _: &mut T) {}

fn run_alone<T>(locks: &Locks<T>, path: &str) -> Result<Vec<()>, Error> {
    locks.run(&locks.list([path]).unwrap(), nothing)
}

/// Runs a list that panics at an access, before it does anything.
fn panic_at(locks: &Locks<i64>, list: &List, number: usize) {
    let running = AssertUnwindSafe(|| {
        locks.run(list, |access, record| {
            if access == number {
                resume_unwind(Box::new(Broken));
            }
            *record += 1;
        })
    });
    let why = catch_unwind(running).unwrap_err();
    assert!(why.is::<Broken>());
}

#[test]
fn accesses_come_in_order_while_their_nodes_are_held() {
    let locks = made(0);
    let list = locks.list([(A, 1), (B, 3), (A, 1)]).unwrap();
    let given = locks.run(&list, |number, record| {
        let path = [A, B, A][number];
        assert!(is_held(&locks, path));
        *record += 1;
        (number, path, *record)
    });
    assert_eq!(given, Ok(vec![(0, A, 1), (1, B, 1), (2, A, 2)]));
    assert_eq!(held(&locks), [""; 0]);
    let none = locks.list([""; 0]).unwrap();
    assert_eq!(locks.run(&none, nothing), Ok(vec![]));
}

#[test]
fn nodes_are_held_as_the_settled_plan_says() {
    let locks = made(());
    let tree = Tree::from_paths(weights().iter().map(|(path, it)| (path.as_str(), *it))).unwrap();
    for wanted in [
        vec![(A, 1), (B, 1)],
        vec![(A, 1), ("/g1", 4), (B, 2), (A, 1)],
        vec![("/", 1), (C, 9)],
        vec![(B, 7)],
    ] {
        let accesses: Vec<Access> = wanted
            .iter()
            .map(|(path, length)| Access::get(*path).lasting(*length))
            .collect();
        let plan = tree.plan(&accesses).unwrap();
        let mut steps = plan.steps();
        let mut planned = BTreeSet::new();
        let list = locks.list(wanted.iter().copied()).unwrap();
        let done = locks.run(&list, |number, _| {
            for step in steps.by_ref() {
                match step {
                    Step::Lock(path) => assert!(planned.insert(path.to_owned())),
                    Step::Unlock(path) => assert!(planned.remove(path)),
                    Step::Access(access) => {
                        assert_eq!(access, number);
                        break;
                    }
                }
            }
            let found: BTreeSet<String> = held(&locks).into_iter().collect();
            assert_eq!(found, planned, "{wanted:?} at {number}");
        });
        assert_eq!(done.map(|it| it.len()), Ok(wanted.len()));
    }
}

#[test]
fn an_error_lets_go_all_and_says_which_accesses_were_done() {
    let locks = made(0);
    let list = locks.list([A, B, C]).unwrap();
    let ended = locks.try_run(&list, |number, record| {
        *record += 1;
        if number == 1 { Err(Broken) } else { Ok(()) }
    });
    let (number, error) = (1, Broken);
    assert_eq!(ended, Err(Stopped::Call { number, error }));
    assert_eq!(held(&locks), [""; 0]);
    let all = locks.try_run(&list, |_, record| Ok::<i64, Broken>(*record));
    assert_eq!(all, Ok(vec![1, 1, 0]));
}

#[test]
fn a_panic_lets_go_all_and_poisons_the_record_that_it_came_at() {
    let locks = made(0);
    for list in [
        locks.list([A, B, C]).unwrap(),
        locks.list([A, B, C]).unwrap().whole(),
    ] {
        panic_at(&locks, &list, 1);
        assert_eq!(held(&locks), [""; 0]);
        for path in [A, C, "/", "/g1"] {
            assert_eq!(run_alone(&locks, path), Ok(vec![()]));
        }
        let ended = locks.run(&list, nothing).unwrap_err();
        assert!(
            matches!(&ended, Error::Poisoned { path, done: 1, .. } if path == B),
            "{ended}"
        );
        assert_eq!(ended.to_string(), "/g1/leaf1 is poisoned, after 1 accesses");
        assert_eq!(held(&locks), [""; 0]);
        locks.mend(B).unwrap();
        assert_eq!(locks.run(&list, nothing).map(|it| it.len()), Ok(3));
    }
    panic_at(&locks, &locks.list([A]).unwrap(), 0);
    let left = locks.into_records().find(|(path, _)| path == A);
    assert_eq!(left, Some((A.to_owned(), 2)));
}

#[test]
fn a_whole_transaction_holds_what_it_accessed() {
    let locks = made(10);
    let list = locks.list([A, B, C]).unwrap().whole();
    let mut transaction = locks.transaction(&list).unwrap();
    for done in 1..=3 {
        let mut record = transaction.access().unwrap().unwrap();
        *record -= 1;
        drop(record);
        assert_eq!(transaction.done(), done);
        for path in &[A, B, C][..done] {
            assert!(is_held(&locks, path), "{path} after {done}");
        }
    }
    assert!(transaction.access().unwrap().is_none());
    assert_eq!(held(&locks), [A, B, C]);
    for number in [2, 0] {
        let mut record = transaction.again(number).unwrap();
        assert_eq!((record.number(), *record), (number, 9));
        *record += 1;
    }
    assert!(transaction.again(3).is_none());
    transaction.finish().unwrap();
    assert_eq!(held(&locks), [""; 0]);
    let left = locks.run(&list, |_, record| *record);
    assert_eq!(left, Ok(vec![10, 9, 10]));
}

#[test]
fn what_was_let_go_is_not_had_again() {
    let locks = made(0);
    let list = locks.list([A, B]).unwrap();
    let mut transaction = locks.transaction(&list).unwrap();
    assert!(transaction.again(0).is_none());
    transaction.access().unwrap();
    assert!(transaction.again(0).is_some());
    assert!(transaction.again(1).is_none());
    transaction.access().unwrap();
    assert!(transaction.again(0).is_none());
    transaction.access().unwrap();
    assert!(transaction.again(1).is_none());
}

#[test]
fn who_leaves_early_is_told() {
    let locks = made(0);
    let list = locks.list([A, B, C]).unwrap();
    for done in 0..3 {
        let mut transaction = locks.transaction(&list).unwrap();
        for _ in 0..done {
            assert!(transaction.access().unwrap().is_some());
        }
        let ended = transaction.finish().unwrap_err();
        assert_eq!(
            ended.to_string(),
            format!("{done} of 3 accesses were begun")
        );
        assert!(matches!(ended, Error::Unfinished { done: it, wanted: 3, .. } if it == done));
        assert_eq!(held(&locks), [""; 0]);
    }
}

#[test]
fn what_is_not_had_in_time_is_told() {
    let locks = made(0);
    let holding = locks.list([B]).unwrap();
    let list = locks.list([A, B]).unwrap();
    for list in [list.clone(), list.whole()] {
        let mut first = locks.transaction(&holding).unwrap();
        let _record = first.access().unwrap();
        let late = thread::scope(|scope| {
            let late = scope.spawn(|| {
                let (begun, limit) = (Instant::now(), Duration::from_millis(20));
                let ended = locks.run(&list.clone().timeout(limit), nothing);
                assert!(begun.elapsed() >= limit);
                ended.unwrap_err()
            });
            late.join().unwrap()
        });
        assert!(matches!(&late, Error::TimedOut { path, .. } if path == B));
        assert!(late.to_string().starts_with("/g1/leaf1 wasn't had in time"));
        assert_eq!(held(&locks), [B]);
    }
}

/// One who waits without a limit has the node as soon as it is let go, also behind one who has given up.
#[test]
fn a_wait_ends_once_the_node_is_let_go() {
    let locks = Arc::new(made(0));
    let list = locks.list([A]).unwrap();
    let (told, came) = mpsc::channel();
    let mut first = locks.transaction(&list).unwrap();
    let record = first.access().unwrap();
    for list in [
        list.clone(),
        list.clone().timeout(LIMIT),
        list.clone().timeout(Duration::from_millis(1)),
    ] {
        let (told, locks) = (told.clone(), Arc::clone(&locks));
        thread::spawn(move || told.send(locks.run(&list, |_, record| *record += 1)));
    }
    let late = came.recv_timeout(LIMIT).unwrap();
    assert!(matches!(late, Err(Error::TimedOut { done: 0, .. })));
    drop(record);
    drop(first);
    for _ in 0..2 {
        assert_eq!(came.recv_timeout(LIMIT).unwrap(), Ok(vec![()]));
    }
    let left = locks.run(&list, |_, record| *record);
    assert_eq!(left, Ok(vec![2]));
}

#[test]
fn no_thread_has_two_at_once() {
    let (locks, other) = (made(()), made(()));
    let lists = [&locks, &other].map(|it| it.list([B]).unwrap());
    let list = locks.list([A]).unwrap();
    let mut transaction = locks.transaction(&list).unwrap();
    let record = transaction.access().unwrap();
    assert_eq!(locks.run(&lists[0], nothing), Err(Error::Nested));
    assert_eq!(other.run(&lists[1], nothing), Ok(vec![()]));
    thread::scope(|scope| {
        let elsewhere = scope.spawn(|| locks.run(&lists[0], nothing));
        assert_eq!(elsewhere.join().unwrap(), Ok(vec![()]));
    });
    drop(record);
    assert!(transaction.access().unwrap().is_none());
    // It has ended, though it is there.
    assert_eq!(locks.run(&lists[0], nothing), Ok(vec![()]));
    assert!(transaction.access().unwrap().is_none());
}

#[test]
fn a_list_is_of_the_locks_that_made_it() {
    let (locks, other) = (made(()), made(()));
    let list = locks.list([A]).unwrap();
    assert_eq!(other.run(&list, nothing), Err(Error::Foreign));
}

#[test]
fn what_is_no_list_is_refused_by_name() {
    let locks = made(());
    for length in [0, 1_001, u64::MAX] {
        let Err(Error::Refused(fault)) = locks.list([(A, 1), (B, length)]) else {
            panic!("{length} is taken");
        };
        assert_eq!(fault.kind(), FaultKind::BadLength);
        assert_eq!(fault.text(), "bad-length list 1");
    }
    let list = locks.list([(A, 1), (B, 1_000)]).unwrap();
    assert_eq!(locks.run(&list, nothing).map(|it| it.len()), Ok(2));
    for path in ["/g9", "", "g0", "/g0/leaf0/"] {
        let refused = locks.list([A, path]).unwrap_err();
        assert_eq!(refused, Error::NoNode(path.to_owned()));
        assert_eq!(locks.mend(path), Err(Error::NoNode(path.to_owned())));
    }
    let Err(Error::Refused(fault)) = locks.list([A; 65]) else {
        panic!("65 accesses are taken");
    };
    assert_eq!(
        (fault.kind(), fault.text()),
        (FaultKind::Limit, "limit list")
    );
    let list = locks.list([A; 64]).unwrap();
    assert_eq!(locks.run(&list, nothing).map(|it| it.len()), Ok(64));
    let path = C.to_owned();
    let mixed: [Wanted; 3] = [A.into(), (B, 2).into(), (&path).into()];
    assert!(locks.list(mixed).is_ok());
}

#[test]
fn weights_are_1_to_1000() {
    for weight in [0, 1_001, u32::MAX] {
        let refused = Locks::new([("/a", weight)], |_| ()).unwrap_err();
        assert!(matches!(&refused, Error::Weight { path, .. } if path == "/a"));
        let wanted = format!("\"/a\" weighs {weight}, which isn't 1 to 1,000");
        assert_eq!(refused.to_string(), wanted);
    }
    let refused = Locks::new([("a", 1)], |_| ()).unwrap_err();
    assert_eq!(refused, Error::BadPath("a".to_owned()));
    let locks = Locks::new([("/a/b", 1_000), ("/", 7), ("/", 1)], |_| ()).unwrap();
    assert_eq!(locks.weights(), [("/", 1), ("/a", 1), ("/a/b", 1_000)]);
}

/// The root is let go before the first access while it is heavy.
#[test]
fn plans_are_by_the_weights_of_now() {
    let locks = Locks::new([("/", 2), ("/a", 1), ("/b", 1)], |_| ()).unwrap();
    let list = locks.list([("/a", 9), ("/b", 1)]).unwrap();
    let held_at_first = || {
        let mut transaction = locks.transaction(&list).unwrap();
        let _record = transaction.access().unwrap();
        held(&locks)
    };
    assert_eq!(held_at_first(), ["/a", "/b"]);
    // Each of the two was found held once.
    locks.reweigh();
    assert_eq!(locks.weights(), [("/", 1), ("/a", 2), ("/b", 2)]);
    assert_eq!(held_at_first(), ["/", "/a"]);
}

#[test]
fn waits_are_counted_and_make_weights() {
    let locks = made(());
    for path in [A, A, "/"] {
        let list = locks.list([path]).unwrap();
        let mut transaction = locks.transaction(&list).unwrap();
        let _record = transaction.access().unwrap();
        assert!(is_held(&locks, path));
    }
    assert_eq!(locks.waits(), [("/", 1), (A, 2)]);
    assert_eq!(locks.reweigh(), 10);
    let weights = locks.weights();
    let weight_of = |path| weights.iter().find(|it| it.0 == path).unwrap().1;
    // 1 + 63 / 2 + 1, 1 + 7 / 2, 1 + 2 and 1.
    assert_eq!(["/", "/g0", A, B].map(weight_of), [33, 4, 3, 1]);
    assert_eq!(locks.waits(), []);
}

#[test]
fn a_tree_may_have_any_size_and_names() {
    let paths: Vec<String> = (0..20_000)
        .map(|number| format!("/user-{}/Überschrift {}\n", number / 100, number % 100))
        .collect();
    let locks = Locks::new(paths.iter().map(|path| (path, 1)), str::to_owned).unwrap();
    assert_eq!(locks.weights().len(), 20_201);
    let wanted = [paths[703].clone(), paths[19_999].clone()];
    let list = locks.list(&wanted).unwrap();
    assert_eq!(
        locks.run(&list, |_, record| record.clone()),
        Ok(wanted.into())
    );
}

#[test]
fn what_is_accessed_may_be_32_deep() {
    let deep = "/a".repeat(1_000);
    let locks = Locks::new([(&deep, 1)], |_| ()).unwrap();
    let at = |depth: usize| &deep[..2 * depth];
    let list = locks.list([at(31), at(32)]).unwrap();
    assert_eq!(locks.run(&list, nothing).map(|it| it.len()), Ok(2));
    let list = locks.list([at(32), at(33)]).unwrap();
    let Err(Error::Refused(fault)) = locks.run(&list, nothing) else {
        panic!("it is taken");
    };
    assert_eq!(
        (fault.kind(), fault.text()),
        (FaultKind::TooDeep, "row 33 too-deep")
    );
    assert!(!(1..=32).any(|depth| is_held(&locks, at(depth))));
}

/// The longest plan that there is: to the ends of 64 chains of the greatest depth, below one root.
#[test]
fn a_plan_may_have_4162_steps() {
    let ends: Vec<String> = (0..64)
        .map(|chain| format!("/c{chain}").repeat(32))
        .collect();
    let locks = Locks::new(ends.iter().map(|path| (path, 1)), |_| 0).unwrap();
    let list = locks.list(&ends).unwrap();
    let given = locks.run(&list, |number, record| {
        *record += number;
        *record
    });
    assert_eq!(given, Ok((0..64).collect()));
    assert_eq!(locks.into_records().map(|(_, it)| it).sum::<usize>(), 2_016);
}

/// What shares it needs no more than records that may go to another thread.
#[test]
fn locks_and_lists_are_shared_by_threads() {
    fn is_shared<S: Send + Sync>(_: &S) {}
    let locks = Locks::new([("/", 1)], |_| std::cell::Cell::new(0)).unwrap();
    is_shared(&locks);
    is_shared(&locks.list(["/"]).unwrap());
}
