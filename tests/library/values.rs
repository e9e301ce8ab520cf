//! Plans, checks and judges the values of each document of a stream (valuing.py), and writes the stream of answers: the
//! lines that the program prints of the document.
//!
//! The values of a document are lines of words with tabs between them, and an empty line behind them.

use pickbracken::{Access, Error, FaultKind, FlowRow, Plan, Reply, Step, Tree};
use std::fmt::Write as _;
use std::io::{self, BufWriter, Write};

/// The document has no values for this call.
const NO_VALUES: (u8, String) = (7, String::new());

/// A tree with so many more nodes is too large for the library, which gets a part of it with each call.
const TOO_MANY: usize = 4_096;

/// What a document has.
#[derive(Default)]
struct Values<'v> {
    weights: Vec<(&'v str, u32)>,
    records: Vec<(&'v str, i64)>,
    list: Vec<Access>,
    steps: Option<Vec<Step<'v>>>,
    rows: Option<Vec<FlowRow<'v>>>,
}

fn main() -> io::Result<()> {
    let text = io::read_to_string(io::stdin())?;
    let mut sink = BufWriter::new(io::stdout().lock());
    for document in documents_in(&text) {
        for (status, text) in answers(document) {
            sink.write_all(&[status])?;
            sink.write_all(&(text.len() as u64).to_le_bytes())?;
            sink.write_all(text.as_bytes())?;
        }
    }
    sink.flush()
}

/// The lines of each document, which end where a line is empty.
fn documents_in(text: &str) -> impl Iterator<Item = &str> {
    let (mut start, mut at) = (0, 0);
    text.split_inclusive('\n').filter_map(move |line| {
        at += line.len();
        let lines = (line == "\n").then(|| &text[start..at - line.len()]);
        start = if lines.is_some() { at } else { start };
        lines
    })
}

fn answers(document: &str) -> [(u8, String); 3] {
    let values = read(document);
    let tree = values.as_ref().and_then(|values| tree_of(values, 0));
    let (Some(values), Some(tree)) = (values, tree) else {
        return [NO_VALUES, NO_VALUES, NO_VALUES];
    };
    let said = answers_over(&tree, &values);
    let larger = tree_of(&values, TOO_MANY).expect("a tree");
    assert_eq!(answers_over(&larger, &values), said, "of a part");
    said
}

fn answers_over(tree: &Tree, values: &Values<'_>) -> [(u8, String); 3] {
    [
        answer(plan_said(tree, values)),
        check_said(tree, values).map_or(NO_VALUES, answer),
        judge_said(tree, values).map_or(NO_VALUES, answer),
    ]
}

fn answer(said: Result<String, Error>) -> (u8, String) {
    match said {
        Ok(lines) => (0, lines),
        Err(Error::Refused(fault)) => {
            assert_ne!(fault.kind(), FaultKind::Unknown, "{fault}");
            (1, fault.text().to_owned())
        }
        Err(error) => (3, error.to_string()),
    }
}

fn read(document: &str) -> Option<Values<'_>> {
    let mut values = Values::default();
    for line in document.lines().filter(|line| !line.is_empty()) {
        let words: Vec<&str> = line.split('\t').collect();
        match words[..] {
            ["node", path, weight, record] => {
                values.weights.push((path, weight.parse().ok()?));
                values.records.push((path, record.parse().ok()?));
            }
            ["access", kind, path, number, length] => {
                let number = number.parse().ok()?;
                let access = match kind {
                    "get" => Access::get(path),
                    "set" => Access::set(path, number),
                    "add" => Access::add(path, number),
                    _ => Access::take(path, number),
                };
                values.list.push(access.lasting(length.parse().ok()?));
            }
            ["plan"] => values.steps = Some(Vec::new()),
            ["flow"] => values.rows = Some(Vec::new()),
            ["step", kind, of] => values.steps.as_mut()?.push(match kind {
                "lock" => Step::Lock(of),
                "unlock" => Step::Unlock(of),
                _ => Step::Access(of.parse().ok()?),
            }),
            ["row", node, above, held, first, last, own] => values.rows.as_mut()?.push(FlowRow {
                node,
                above: above.parse().ok()?,
                held: held.parse().ok()?,
                first: first.parse().ok()?,
                last: last.parse().ok()?,
                own: own.parse().ok()?,
            }),
            _ => return None,
        }
    }
    (!values.weights.is_empty()).then_some(values)
}

/// The tree, with so many more children of its root behind all others.
fn tree_of(values: &Values<'_>, more: usize) -> Option<Tree> {
    let others: Vec<String> = (0..more).map(|number| format!("/ {number}")).collect();
    let others = others.iter().map(|path| (path.as_str(), 1));
    let tree = Tree::from_paths(values.weights.iter().copied().chain(others)).ok()?;
    let own = values.weights.iter().map(|(path, _)| *path);
    let is_in_order = tree.paths().take(values.weights.len()).eq(own);
    let mut recorded = is_in_order.then_some(tree)?;
    for (path, record) in &values.records {
        recorded = recorded.with_record(path, *record).ok()?;
    }
    Some(recorded)
}

fn plan_said(tree: &Tree, values: &Values<'_>) -> Result<String, Error> {
    let plan = tree.plan(&values.list)?;
    assert_eq!(tree.plan(&values.list)?, plan, "it was kept");
    let (steps, rows) = (joined(plan.steps(), write_step), joined(plan.flow()?, write_row));
    Ok(format!("cost {}\nplan {steps}\nflow {rows}\n", plan.cost()))
}

fn check_said(tree: &Tree, values: &Values<'_>) -> Option<Result<String, Error>> {
    let (steps, rows) = (values.steps.clone()?, values.rows.clone()?);
    let cost = tree.check(&values.list, &Plan::new(0, steps, rows));
    if let Ok(own) = tree.plan(&values.list) {
        // The numbers of the tree's own plan are taken as they are.
        assert_eq!(tree.check(&values.list, &own), Ok(own.cost()));
    }
    Some(cost.map(|cost| format!("cost {cost}\n")))
}

fn judge_said(tree: &Tree, values: &Values<'_>) -> Option<Result<String, Error>> {
    let judged = tree.judge(&values.list, values.steps.clone()?);
    Some(judged.map(|judged| {
        let replies = joined(judged.replies.into_iter(), write_reply);
        let records = judged.records.into_iter().take(values.records.len());
        let records = joined(records, |text, it| write!(text, "{it}"));
        format!("cost {}\nreplies {replies}\nrecords {records}\n", judged.cost)
    }))
}

fn joined<T>(
    items: impl Iterator<Item = T>,
    write: impl Fn(&mut String, T) -> std::fmt::Result,
) -> String {
    let mut text = String::from("[");
    for (at, item) in items.enumerate() {
        if at > 0 {
            text.push(',');
        }
        write(&mut text, item).expect("a string takes what is written");
    }
    text.push(']');
    text
}

fn write_step(text: &mut String, step: Step<'_>) -> std::fmt::Result {
    match step {
        Step::Lock(path) => write!(text, "[\"lock\",\"{path}\"]"),
        Step::Unlock(path) => write!(text, "[\"unlock\",\"{path}\"]"),
        Step::Access(number) => write!(text, "[\"access\",{number}]"),
    }
}

fn write_row(text: &mut String, row: FlowRow<'_>) -> std::fmt::Result {
    let FlowRow { node, above, held, first, last, own } = row;
    write!(text, "{{\"above\":{above},\"first\":{first},\"held\":{held},\"last\":{last},")?;
    write!(text, "\"node\":\"{node}\",\"own\":{own}}}")
}

fn write_reply(text: &mut String, reply: Reply) -> std::fmt::Result {
    match reply {
        Reply::Number(number) => write!(text, "{number}"),
        Reply::Stored => write!(text, "\"ok\""),
        Reply::Range => write!(text, "\"range\""),
        Reply::Short => write!(text, "\"short\""),
        other => panic!("{other:?} is new"),
    }
}
