//! Stores inside the process.

use pickbracken::{Access, Error, FaultKind, Reply, Requests, Store, Tree};
use std::thread;

const ADD: &[u8] = br#"{"batch":[[["add","/a",1]]]}"#;

fn stock() -> Tree {
    Tree::from_paths([("/", 5), ("/a", 1), ("/b", 1)])
        .and_then(|tree| tree.with_record("/a", 10))
        .unwrap()
}

fn refused(error: Error) -> String {
    match error {
        Error::Refused(fault) => fault.name().to_owned(),
        other => panic!("{other}"),
    }
}

#[test]
fn requests_are_those_of_a_client() {
    let store = Store::open(&stock()).unwrap();
    let lists = [
        vec![Access::get("/a"), Access::set("/b", 3)],
        vec![Access::take("/b", 4)],
    ];
    let round = store.batch(&lists).unwrap();
    assert_eq!((round.places, round.round), (vec![0, 1], 1));
    let wanted = [vec![Reply::Number(10), Reply::Stored], vec![Reply::Short]];
    assert_eq!(round.replies, wanted);
    let list = [Access::get("/a"), Access::add("/b", 1).lasting(2)];
    let plan = store.plan(&list).unwrap();
    assert_eq!(plan, stock().plan(&list).unwrap());
    assert_eq!(store.check(&list, &plan), Ok(plan.cost()));
    for (root, changed) in [(5, 1), (3, 1), (2, 1), (1, 0)] {
        let told = store.weights().unwrap();
        assert_eq!((told.weights, told.waits), (vec![root, 1, 1], vec![0; 3]));
        assert_eq!(store.reweigh(), Ok(changed));
    }
    let none: [[Access; 0]; 0] = [];
    assert_eq!(store.batch(none).unwrap().replies, [[]; 0]);
}

#[test]
fn a_refused_batch_does_none_of_its_lists() {
    let store = Store::open(&stock()).unwrap();
    let lists = [[Access::add("/a", 1)], [Access::get("/c")]];
    let Err(Error::Refused(fault)) = store.batch(&lists) else {
        panic!("it isn't refused");
    };
    assert_eq!(fault.kind(), FaultKind::NoPath);
    assert_eq!((fault.place(), fault.hint()), ("", None));
    let round = store.batch(&lists[..1]).unwrap();
    assert_eq!(
        (round.replies, round.round),
        (vec![vec![Reply::Number(11)]], 1)
    );
}

#[test]
fn lines_are_answered_in_turn() {
    let store = Store::open(&stock()).unwrap();
    assert_eq!(store.last_reply(), "");
    for round in 1..=3 {
        let wanted = format!(
            r#"{{"places":[0],"replies":[[{}]],"round":{round}}}"#,
            10 + round
        );
        assert_eq!(store.send(ADD).unwrap(), wanted);
        assert_eq!(store.last_reply(), wanted);
    }
}

#[test]
fn refusals_have_names_and_change_nothing() {
    let store = Store::open(&stock()).unwrap();
    let long = vec![b' '; 1_048_577];
    let lines: [(&[u8], &str); 4] = [
        (b"", "bad-json"),
        (b"{}", "shape"),
        (br#"{"plan":[["get","/c"]]}"#, "no-path"),
        (&long, "long-line"),
    ];
    let instant = Access::get("/a").lasting(0);
    assert_eq!(refused(store.batch([[instant]]).unwrap_err()), "bad-length");
    for (line, name) in lines {
        assert_eq!(refused(store.send(line).unwrap_err()), name);
    }
    assert_eq!(store.last_reply(), r#"{"error":"long-line"}"#);
    let wanted = r#"{"places":[0],"replies":[[11]],"round":1}"#;
    assert_eq!(store.send(ADD).unwrap(), wanted);
}

#[test]
fn a_reply_longer_than_the_first_buffer_comes_whole_and_once() {
    let store = Store::open(&stock()).unwrap();
    let list = vec![r#"["add","/a",1]"#; 64].join(",");
    let lists = vec![format!("[{list}]"); 128].join(",");
    let reply = store
        .send(format!(r#"{{"batch":[{lists}]}}"#).as_bytes())
        .unwrap();
    assert!(reply.len() > 16_384 && reply.ends_with(r#","round":1}"#));
    assert_eq!(store.last_reply(), reply);
    let wanted = format!(
        r#"{{"places":[0],"replies":[[{}]],"round":2}}"#,
        10 + 64 * 128 + 1
    );
    assert_eq!(store.send(ADD).unwrap(), wanted);
}

#[test]
fn threads_take_turns() {
    let store = Store::open(&stock()).unwrap();
    let add_often = || -> Vec<Reply> {
        let add = |_| store.batch([[Access::add("/a", 1)]]).unwrap().replies[0][0];
        (0..200).map(add).collect()
    };
    let mut came: Vec<Reply> = thread::scope(|scope| {
        let threads: Vec<_> = (0..4).map(|_| scope.spawn(add_often)).collect();
        let each = threads.into_iter().map(|it| it.join().unwrap());
        each.flatten().collect()
    });
    came.sort_by_key(|reply| match reply {
        Reply::Number(number) => *number,
        other => panic!("{other:?}"),
    });
    let wanted: Vec<Reply> = (11..=810).map(Reply::Number).collect();
    assert_eq!(came, wanted);
}

#[test]
fn documents_that_are_refused_open_no_store() {
    assert_eq!(refused(Store::open_document(b"{").unwrap_err()), "bad-json");
    let named = Tree::from_paths([("/a b", 1)]).unwrap();
    assert_eq!(refused(Store::open(&named).unwrap_err()), "bad-name");
}
