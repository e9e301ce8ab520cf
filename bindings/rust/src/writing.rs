//! Documents of trees, lists, plans and flows (docs/FORMATS.md).

use crate::access::{Access, Op};
use crate::error::Error;
use crate::json::quoted;
use crate::nodes::Nodes;
use crate::plan::{FlowRow, Plan, Step};
use std::fmt::{self, Write};

/// The version of documents in which accesses have lengths.
const VERSION: u32 = 2;
const FITS: &str = "a string takes what is written";

/// The document of a tree and its records, with the rest of it, which is an object.
pub(crate) fn written_tree(nodes: &Nodes, weights: &[u32], records: &[i64], rest: &str) -> String {
    let mut text = String::from("{\"nodes\":[");
    let each = (0..).zip(weights.iter().zip(records));
    join(&mut text, each, |text, (number, (weight, record))| {
        text.push_str("{\"parent\":");
        match number {
            0 => text.push_str("null"),
            _ => write!(text, "{}", nodes.parent(number))?,
        }
        let name = quoted(nodes.paths.name(number));
        write!(
            text,
            ",\"name\":{name},\"weight\":{weight},\"value\":{record}}}"
        )
    });
    text.push_str("],");
    text.push_str(rest.trim_start_matches('{'));
    text
}

/// The document of a tree alone has this for the rest.
pub(crate) fn no_list() -> String {
    format!("{{\"version\":{VERSION}}}")
}

/// The accesses as a document has them.
pub(crate) fn written_list(list: &[Access]) -> String {
    let mut text = String::from("[");
    join(&mut text, list, write_access);
    text.push(']');
    text
}

/// The document without a tree of a list and a plan with its flow.
pub(crate) fn claim(list: &[Access], plan: &Plan) -> Result<String, Error> {
    let mut text = question(list, Some(plan.steps()));
    text.pop();
    text.push_str(",\"flow\":[");
    join(&mut text, plan.flow()?, write_row);
    text.push_str("]}");
    Ok(text)
}

/// The document without a tree of a list, and of steps if there are any.
pub(crate) fn question<'p>(
    list: &[Access],
    steps: Option<impl IntoIterator<Item = Step<'p>>>,
) -> String {
    let list = written_list(list);
    let mut text = format!("{{\"version\":{VERSION},\"list\":{list}");
    if let Some(steps) = steps {
        text.push_str(",\"plan\":[");
        join(&mut text, steps, write_step);
        text.push(']');
    }
    text.push('}');
    text
}

/// Writes the items, with commas between them.
fn join<T>(
    text: &mut String,
    items: impl IntoIterator<Item = T>,
    write: impl Fn(&mut String, T) -> fmt::Result,
) {
    for (at, item) in items.into_iter().enumerate() {
        if at > 0 {
            text.push(',');
        }
        write(text, item).expect(FITS);
    }
}

fn write_access(text: &mut String, access: &Access) -> fmt::Result {
    let path = quoted(&access.path);
    match access.op {
        Op::Get => write!(text, "[\"get\",{path}")?,
        Op::Set(number) => write!(text, "[\"set\",{path},{number}")?,
        Op::Add(number) => write!(text, "[\"add\",{path},{number}")?,
        Op::Take(number) => write!(text, "[\"take\",{path},{number}")?,
    }
    write!(text, ",{}]", access.length)
}

fn write_row(text: &mut String, row: FlowRow<'_>) -> fmt::Result {
    let node = quoted(row.node);
    write!(
        text,
        "{{\"node\":{node},\"above\":{},\"held\":{},\"first\":{},\"last\":{},\"own\":{}}}",
        row.above, row.held, row.first, row.last, row.own
    )
}

fn write_step(text: &mut String, step: Step<'_>) -> fmt::Result {
    match step {
        Step::Lock(path) => write!(text, "[\"lock\",{}]", quoted(path)),
        Step::Unlock(path) => write!(text, "[\"unlock\",{}]", quoted(path)),
        Step::Access(number) => write!(text, "[\"access\",{number}]"),
    }
}
