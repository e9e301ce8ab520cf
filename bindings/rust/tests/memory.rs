//! Ten thousand calls of each kind leave the memory of the process as it was.

use pickbracken::{Access, Locks, Requests, Store, Tree, document};
use std::fs;

/// More than this is no noise, and less than what ten thousand trees take.
const MOST: usize = 1 << 20;

/// How many bytes of memory the process has.
fn resident() -> usize {
    let pages = fs::read_to_string("/proc/self/statm").unwrap();
    let resident = pages.split(' ').nth(1).unwrap();
    4096 * resident.parse::<usize>().unwrap()
}

#[test]
fn ten_thousand_calls_keep_nothing() {
    let list = [Access::get("/a"), Access::add("/b", 1)];
    let each = || {
        let tree = Tree::from_paths([("/", 5), ("/a", 1), ("/b", 1)]).unwrap();
        let plan = tree.plan(&list).unwrap();
        tree.check(&list, &plan).unwrap();
        document::judge(b"{").unwrap_err();
        let locks = Locks::new([("/", 5), ("/a", 1), ("/b", 1)], |_| 0).unwrap();
        let pair = locks.list(["/a", "/b"]).unwrap();
        locks.run(&pair, |_, record| *record += 1).unwrap();
        let store = Store::open(&tree).unwrap();
        store.send(br#"{"batch":[[["add","/a",1]]]}"#).unwrap();
    };
    (0..500).for_each(|_| each());
    let before = resident();
    (0..10_000).for_each(|_| each());
    let grown = resident().saturating_sub(before);
    assert!(grown < MOST, "{grown} bytes");
}
