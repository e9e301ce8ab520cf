use crate::error::Error;
use crate::fault::Fault;
use crate::library::{KeptTree, Said};
use crate::nodes::Nodes;
use crate::numbers::{Arrays, NumberedFault, NumberedRow, NumberedStep, Reason};
use crate::part::Part;
use crate::plan::{Plan, Step, access_number};
use crate::target::Target;
use std::borrow::Cow;
use std::sync::Arc;

/// Steps that are said to be a legal plan of a list, and a flow if that is said to prove that none costs less.
pub(crate) struct Claim<'a> {
    list: Arrays,
    steps: Cow<'a, [NumberedStep]>,
    rows: Option<Cow<'a, [NumberedRow]>>,
}

impl<'a> Claim<'a> {
    /// That of a plan with its flow; or what is named there first that isn't in the tree.
    pub(crate) fn of_plan(
        nodes: &Nodes,
        list: &[Target],
        plan: &'a Plan,
    ) -> Result<Claim<'a>, Error> {
        let (steps, rows) = (plan.numbered_steps(), plan.numbered_rows()?);
        let (steps, rows) = if Arc::ptr_eq(plan.paths(), &nodes.paths) {
            (Cow::Borrowed(steps), Cow::Borrowed(rows))
        } else {
            let found: Vec<Option<u32>> = plan.paths().iter().map(|it| nodes.find(it)).collect();
            let step = |(at, step): (usize, &NumberedStep)| match step.node() {
                Some(node) if found[node as usize].is_none() => Err(no_path("plan", at)),
                _ => Ok(step.numbered(|node| found[node as usize].unwrap_or(node))),
            };
            let row = |(at, row): (usize, &NumberedRow)| {
                let node = found[row.node as usize].ok_or_else(|| no_path("flow", at))?;
                Ok(NumberedRow { node, ..*row })
            };
            let steps: Result<Vec<_>, Error> = steps.iter().enumerate().map(step).collect();
            let rows: Result<Vec<_>, Error> = rows.iter().enumerate().map(row).collect();
            (Cow::Owned(steps?), Cow::Owned(rows?))
        };
        Ok(Claim {
            list: Arrays::of(list),
            steps,
            rows: Some(rows),
        })
    }

    /// That of steps alone.
    pub(crate) fn of_steps<'p>(
        nodes: &Nodes,
        list: &[Target],
        steps: impl IntoIterator<Item = Step<'p>>,
    ) -> Result<Claim<'a>, Error> {
        let number = |at, path| nodes.find(path).ok_or_else(|| no_path("plan", at));
        let step = |(at, step)| match step {
            Step::Lock(path) => Ok(NumberedStep::Lock(number(at, path)?)),
            Step::Unlock(path) => Ok(NumberedStep::Unlock(number(at, path)?)),
            Step::Access(access) => Ok(NumberedStep::Access(access_number(access))),
        };
        let steps: Result<Vec<_>, Error> = steps.into_iter().enumerate().map(step).collect();
        Ok(Claim {
            list: Arrays::of(list),
            steps: Cow::Owned(steps?),
            rows: None,
        })
    }

    /// What the library says of it over a tree.
    pub(crate) fn ask(&self, tree: &mut KeptTree) -> Result<Said, Error> {
        let list = self.list.accesses();
        match &self.rows {
            Some(rows) => tree.check(list, &self.steps, rows),
            None => tree.judge(list, &self.steps),
        }
    }

    /// What it says of it over the part of a tree that has all nodes which are named here.
    pub(crate) fn ask_part(&self, nodes: &Nodes, weights: &[u32]) -> Result<Said, Error> {
        let part = Part::of(nodes, self.named())?;
        let tree = KeptTree::build(&part.parents, &part.weights(weights))?;
        let said = self
            .within(&part)
            .ask(&mut tree.expect("it is in the limits"))?;
        Ok(said.map_err(|fault| match fault.reason {
            Reason::StillHeld => NumberedFault {
                place: part.numbers[fault.place as usize],
                ..fault
            },
            _ => fault,
        }))
    }

    /// The nodes that are named.
    fn named(&self) -> Vec<u32> {
        let steps = self.steps.iter().filter_map(|step| step.node());
        let rows = self.rows.iter().flat_map(|rows| rows.iter());
        let listed = self.list.accesses().nodes.iter().copied();
        listed
            .chain(steps)
            .chain(rows.map(|row| row.node))
            .collect()
    }

    /// The same with the places of the nodes in a part.
    fn within(&self, part: &Part) -> Claim<'static> {
        let place = |node| part.place(node);
        let row = |row: &NumberedRow| NumberedRow {
            node: place(row.node),
            ..*row
        };
        Claim {
            list: self.list.numbered(place),
            steps: self.steps.iter().map(|step| step.numbered(place)).collect(),
            rows: self
                .rows
                .as_ref()
                .map(|rows| rows.iter().map(row).collect()),
        }
    }
}

/// The fault of a step or a row that names a path which the tree doesn't have.
fn no_path(part: &str, at: usize) -> Error {
    Error::Refused(Fault::of(format!("no-path {part} {at}")))
}
