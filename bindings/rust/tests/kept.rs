//! Trees that the library keeps.

use pickbracken::{Access, Error, Tree};
use std::thread;

fn stock() -> Tree {
    Tree::from_paths([("/", 5), ("/a", 1), ("/b", 1)])
        .and_then(|tree| tree.with_record("/a", 10))
        .and_then(|tree| tree.with_record("/b", 20))
        .unwrap()
}

fn name_of(error: Error) -> (String, String) {
    match error {
        Error::Refused(fault) => (fault.name().to_owned(), fault.place().to_owned()),
        other => panic!("{other}"),
    }
}

fn refusal(name: &str, place: &str) -> (String, String) {
    (name.to_owned(), place.to_owned())
}

#[test]
fn trees_go_from_thread_to_thread() {
    let tree = stock();
    let list = [Access::get("/a"), Access::add("/b", 1)];
    let wanted = tree.plan(&list).unwrap();
    thread::scope(|scope| {
        let planning: Vec<_> = (0..4)
            .map(|_| scope.spawn(|| (0..50).all(|_| tree.plan(&list).unwrap() == wanted)))
            .collect();
        assert!(planning.into_iter().all(|it| it.join().unwrap()));
    });
    let moved = thread::spawn(move || tree.check(&list, &wanted).unwrap() == wanted.cost());
    assert!(moved.join().unwrap());
}

#[test]
fn a_list_that_is_refused_is_refused_again() {
    let tree = stock();
    for _ in 0..2 {
        let error = tree.plan(&[Access::get("/a"), Access::get("/c")]);
        assert_eq!(name_of(error.unwrap_err()), refusal("no-path", "list 1"));
    }
}

#[test]
fn a_clone_is_the_same_tree() {
    let tree = stock();
    let list = [Access::get("/a")];
    let plan = tree.plan(&list).unwrap();
    let other = tree.clone();
    assert_eq!(other, tree);
    drop(tree);
    assert_eq!(other.plan(&list).unwrap(), plan);
}
