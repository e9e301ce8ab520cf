//! What tests of `Locks` share: a tree of 64 leaves, and ways to look at it.

use pickbracken::{Error, Locks};
use std::thread;
use std::time::Duration;

/// Two leaves of different groups.
pub const A: &str = "/g0/leaf0";
pub const B: &str = "/g1/leaf1";
/// Nobody waits for another thread as long.
pub const LIMIT: Duration = Duration::from_secs(60);

pub fn leaves() -> Vec<String> {
    (0..64)
        .map(|number| format!("/g{}/leaf{number}", number % 8))
        .collect()
}

pub fn groups() -> Vec<String> {
    (0..8).map(|number| format!("/g{number}")).collect()
}

/// The weight of each node: a group of 8 leaves weighs as much as they.
pub fn weights() -> Vec<(String, u32)> {
    let root = [("/".to_owned(), 64)].into_iter();
    let groups = groups().into_iter().map(|path| (path, 8));
    let leaves = leaves().into_iter().map(|path| (path, 1));
    root.chain(groups).chain(leaves).collect()
}

/// Locks of these nodes, whose records begin alike.
pub fn made<T: Clone>(record: T) -> Locks<T> {
    Locks::new(weights(), |_| record.clone()).unwrap()
}

/// Whether somebody holds a node. (It is seen by another thread, as this one may be in a transaction.)
pub fn is_held<T: Send>(locks: &Locks<T>, path: &str) -> bool {
    let list = locks.list([path]).unwrap().timeout(Duration::ZERO);
    let seen = thread::scope(|scope| {
        let looking = scope.spawn(|| locks.run(&list, |_, _| ()));
        looking.join().expect("it only looks")
    });
    match seen {
        Ok(_) | Err(Error::Poisoned { .. }) => false,
        Err(Error::TimedOut { .. }) => true,
        Err(other) => panic!("{other}"),
    }
}

/// The nodes that somebody holds.
pub fn held<T: Send>(locks: &Locks<T>) -> Vec<String> {
    let paths = locks.weights().into_iter().map(|(path, _)| path.to_owned());
    paths.filter(|path| is_held(locks, path)).collect()
}
