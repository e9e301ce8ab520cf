//! Trees, lists and plans as values.

use pickbracken::{Access, Error, FlowRow, Form, Plan, Reply, Requests, Step, Store, Tree};

fn name_of(error: Error) -> String {
    match error {
        Error::Refused(fault) => fault.name().to_owned(),
        other => panic!("{other}"),
    }
}

fn stock() -> Tree {
    Tree::from_paths([("/", 5), ("/a", 1), ("/b", 1)])
        .and_then(|tree| tree.with_record("/a", 10))
        .and_then(|tree| tree.with_record("/b", 20))
        .unwrap()
}

#[test]
fn plans_are_least_and_legal() {
    let list = [Access::get("/a"), Access::take("/b", 3)];
    let plan = stock().plan(&list).unwrap();
    assert_eq!(plan.cost(), 3);
    assert_eq!(plan.steps().next(), Some(Step::Lock("/")));
    assert_eq!((plan.steps().len(), plan.flow().unwrap().len()), (8, 3));
    assert_eq!(stock().check(&list, &plan).unwrap(), 3);
    let judged = stock().judge(&list, plan.steps()).unwrap();
    assert_eq!(judged.cost, 3);
    assert_eq!(judged.replies, [Reply::Number(10), Reply::Number(17)]);
    assert_eq!(judged.records, [0, 10, 17]);
}

#[test]
fn replies_are_told_apart() {
    let list = [
        Access::set("/a", i64::MAX),
        Access::add("/a", 1),
        Access::take("/b", 21),
        Access::add("/b", i64::MIN).lasting(1000),
    ];
    let plan = stock().plan(&list).unwrap();
    let judged = stock().judge(&list, plan.steps()).unwrap();
    assert_eq!(
        judged.replies,
        [
            Reply::Stored,
            Reply::Range,
            Reply::Short,
            Reply::Number(i64::MIN + 20)
        ]
    );
}

#[test]
fn a_record_has_64_bits() {
    let list = [Access::get("/a"), Access::add("/a", 1)];
    for (record, more) in [
        (i64::MAX - 1, Reply::Number(i64::MAX)),
        (i64::MAX, Reply::Range),
        (i64::MIN, Reply::Number(i64::MIN + 1)),
    ] {
        let tree = stock().with_record("/a", record).unwrap();
        let plan = tree.plan(&list).unwrap();
        let judged = tree.judge(&list, plan.steps()).unwrap();
        assert_eq!(judged.replies, [Reply::Number(record), more]);
        let store = Store::open(&tree).unwrap();
        assert_eq!(store.batch([&list]).unwrap().replies, [judged.replies]);
    }
    for record in ["9223372036854775808", "-9223372036854775809"] {
        let root = format!(r#"{{"parent":null,"name":"","weight":1,"value":{record}}}"#);
        let document = format!(r#"{{"version":2,"nodes":[{root}]}}"#);
        let refused = Store::open_document(document.as_bytes()).unwrap_err();
        assert_eq!(name_of(refused), "shape");
    }
}

#[test]
fn a_changed_certificate_proves_nothing() {
    let list = [Access::get("/a"), Access::get("/b")];
    let plan = stock().plan(&list).unwrap();
    let mut rows: Vec<FlowRow> = plan.flow().unwrap().collect();
    rows[1].last += 1;
    let changed = Plan::new(plan.cost(), plan.steps(), rows);
    let fault = name_of(stock().check(&list, &changed).unwrap_err());
    assert!(fault.ends_with("-balance"), "{fault}");
}

#[test]
fn a_flow_is_of_the_tree_as_it_stood() {
    let (mut tree, before) = (stock(), stock());
    let list = [Access::get("/a"), Access::get("/b")];
    let plan = tree.plan(&list).unwrap();
    assert_eq!(tree.reweigh(&[9, 9, 9]), Ok(3));
    assert_ne!(tree.plan(&list).unwrap().cost(), plan.cost());
    drop(tree);
    let read = Plan::new(0, plan.steps(), plan.flow().unwrap());
    assert_eq!(before.check(&list, &read), Ok(plan.cost()));
    assert_eq!(before.plan(&list).unwrap(), plan);
}

#[test]
fn bad_values_are_refused_by_name() {
    let list = [Access::get("/c")];
    assert_eq!(name_of(stock().plan(&list).unwrap_err()), "no-path");
    let list = [Access::get("/a").lasting(0)];
    assert_eq!(name_of(stock().plan(&list).unwrap_err()), "bad-length");
    let list = vec![Access::get("/a"); 65];
    assert_eq!(name_of(stock().plan(&list).unwrap_err()), "limit");
    let list = [Access::get("/a")];
    let steps = [Step::Lock("/a"), Step::Access(0)];
    assert_eq!(
        name_of(stock().judge(&list, steps).unwrap_err()),
        "still-held"
    );
    let heavy = Tree::from_paths([("/a", 1001)]).unwrap_err();
    assert!(matches!(&heavy, Error::Weight { path, weight: 1001, .. } if path == "/a"));
    let named = Tree::from_paths([("/a\"b\n", 1)]).unwrap();
    assert_eq!(named.plan(&[]).unwrap().cost(), 0);
    let drawn = named.draw(&[], Form::Text).unwrap_err();
    assert_eq!(name_of(drawn), "bad-name");
    for path in ["", "a", "/a/", "//a"] {
        let refused = Tree::from_paths([(path, 1)]).unwrap_err();
        assert_eq!(refused, Error::BadPath(path.to_owned()));
        let wanted = format!("{path:?} is no path from the root down");
        assert_eq!(refused.to_string(), wanted);
    }
    let refused = stock().with_record("a", 1).unwrap_err();
    assert_eq!(refused, Error::BadPath("a".to_owned()));
    for path in ["/c", "/a/c", "/a/b"] {
        let refused = stock().with_record(path, 1).unwrap_err();
        assert_eq!(refused, Error::NoNode(path.to_owned()));
        assert_eq!(
            refused.to_string(),
            format!("no node has the path {path:?}")
        );
    }
}

#[test]
fn a_path_may_be_of_any_length() {
    let long = "/a".repeat(1_000_000);
    let tree = Tree::from_paths([(long.as_str(), 1)]).unwrap();
    assert_eq!(tree.len(), 1_000_001);
    let list = [Access::get("/a"), Access::get(&long[..66])];
    assert_eq!(name_of(tree.plan(&list).unwrap_err()), "too-deep");
    let list = [Access::get("/a"), Access::get(&long[..64])];
    let plan = tree.plan(&list).unwrap();
    assert_eq!((plan.cost(), plan.steps().len()), (2, 66));
    assert_eq!(tree.check(&list, &plan), Ok(2));
}

#[test]
fn trees_stand_in_preorder() {
    let tree = Tree::from_paths([("/a/b/c", 3), ("/d", 2), ("/a/e", 4), ("/d", 7)]).unwrap();
    let paths: Vec<&str> = tree.paths().collect();
    assert_eq!(paths, ["/", "/a", "/a/b", "/a/b/c", "/a/e", "/d"]);
    assert_eq!(tree.len(), 6);
    assert_eq!((tree.number("/a/e"), tree.number("/e")), (Some(4), None));
    let plan = tree.plan(&[Access::get("/d")]).unwrap();
    assert_eq!(plan.cost(), 7);
}

#[test]
fn drawings_have_both_forms() {
    let list = [Access::get("/a")];
    let svg = stock().draw(&list, Form::Svg).unwrap();
    assert!(
        svg.starts_with("<svg ") && svg.ends_with("</svg>\n"),
        "{svg}"
    );
    let plan = stock().plan(&list).unwrap();
    let text = stock()
        .draw_beside(&list, plan.steps(), Form::Text)
        .unwrap();
    assert!(text.contains("the settled plan: cost 1"), "{text}");
}

/// Numbers that look drawn.
struct Drawn(u64);

impl Drawn {
    fn below(&mut self, bound: usize) -> usize {
        self.0 = self.0.wrapping_mul(6364136223846793005);
        self.0 = self.0.wrapping_add(1442695040888963407);
        (self.0 >> 33) as usize % bound
    }
}

/// Trees of more nodes than the library takes, and the same without what no list here needs.
fn large_and_small() -> (Tree, Tree) {
    let few = (0..300).map(|it| format!("/g{}/h{}/leaf{it}", it % 7, it % 21));
    let few: Vec<String> = few.collect();
    let more: Vec<String> = (0..5_000).map(|it| format!("/g{}/x{it}", it % 9)).collect();
    let weight =
        |(number, path): (usize, &'_ String)| (path.clone(), 1 + number as u32 * 37 % 1_000);
    let small: Vec<(String, u32)> = few.iter().enumerate().map(weight).collect();
    let large = more.iter().enumerate().map(weight).chain(small.clone());
    let large: Vec<(String, u32)> = large.collect();
    let made = |nodes: &[(String, u32)]| {
        Tree::from_paths(nodes.iter().map(|(path, weight)| (path.as_str(), *weight))).unwrap()
    };
    (made(&large), made(&small))
}

#[test]
fn trees_of_any_size_have_the_same_plans() {
    let (large, small) = large_and_small();
    assert!(large.len() > 5_000 && small.len() < 1_000);
    let paths: Vec<&str> = small.paths().collect();
    let mut drawn = Drawn(7);
    for _ in 0..200 {
        let count = drawn.below(8);
        let one = |drawn: &mut Drawn| {
            let length = 1 + drawn.below(9) as u64;
            Access::add(paths[drawn.below(paths.len())], 1).lasting(length)
        };
        let list: Vec<Access> = (0..count).map(|_| one(&mut drawn)).collect();
        let (plan, other) = (small.plan(&list).unwrap(), large.plan(&list).unwrap());
        assert!(plan.steps().eq(other.steps()), "{list:?}");
        assert_eq!(plan.cost(), other.cost());
        // Siblings stand in another order in the two trees, and so do rows.
        assert_eq!(plan.flow().unwrap().len(), other.flow().unwrap().len());
        for (tree, plan) in [(&large, &other), (&small, &plan)] {
            assert_eq!(tree.check(&list, plan), Ok(plan.cost()));
            let judged = tree.judge(&list, plan.steps()).unwrap();
            assert_eq!((judged.cost, judged.replies.len()), (plan.cost(), count));
            assert_eq!(judged.records.len(), tree.len());
            if count > 0 {
                let without_last = plan.steps().take(plan.steps().len() - 1);
                let fault = tree.judge(&list, without_last).unwrap_err();
                assert!(fault.to_string().ends_with(" still-held"), "{fault}");
            }
        }
    }
}

#[test]
fn a_plan_of_somebody_else_is_checked() {
    let (large, small) = large_and_small();
    let list = [Access::get("/g0/h0/leaf0"), Access::get("/g1/h1/leaf1")];
    for tree in [&large, &small] {
        let plan = tree.plan(&list).unwrap();
        let made = Plan::new(0, plan.steps(), plan.flow().unwrap());
        assert_eq!(tree.check(&list, &made), Ok(plan.cost()));
        // A node above all is locked and let go: that costs nothing, but is no reason to refuse it.
        let above = [Step::Lock("/g8"), Step::Unlock("/g8")];
        let longer = Plan::new(
            0,
            plan.steps().chain([Step::Lock("/none")]),
            plan.flow().unwrap(),
        );
        let refused = tree.check(&list, &longer).unwrap_err();
        let at = plan.steps().len();
        assert_eq!(refused.to_string(), format!("refused no-path plan {at}"));
        let late = tree.judge(&list, plan.steps().chain(above)).unwrap_err();
        let wanted = match tree.len() {
            len if len > 5_000 => format!("refused step {at} parent-not-held"),
            _ => format!("refused no-path plan {at}"),
        };
        assert_eq!(late.to_string(), wanted);
        let mut rows: Vec<FlowRow> = plan.flow().unwrap().collect();
        rows[1].node = "/none";
        let refused = tree
            .check(&list, &Plan::new(0, plan.steps(), rows))
            .unwrap_err();
        assert_eq!(refused.to_string(), "refused no-path flow 1");
    }
    let steps = [Step::Lock("/g0/h0/leaf0"), Step::Access(99)];
    let refused = small.judge(&list, steps).unwrap_err();
    assert_eq!(refused.to_string(), "refused step 1 strange");
}

#[test]
fn weights_are_made_of_waits() {
    let mut tree = stock();
    let list = [Access::get("/a"), Access::get("/b")];
    assert_eq!(tree.plan(&list).unwrap().cost(), 3);
    assert_eq!(tree.reweigh(&[9, 1]), Ok(2));
    assert_eq!(tree.weights(), [12, 2, 1]);
    assert_eq!(tree.plan(&list).unwrap().cost(), 4);
    assert_eq!(tree.reweigh(&[]), Ok(2));
    assert_eq!(tree.weights(), [6, 1, 1]);
}
