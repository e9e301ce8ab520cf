use crate::access::Reply;
use crate::error::Error;
use crate::flow::{Flow, Settled};
use crate::numbers::{NumberedRow, NumberedStep};
use crate::paths::Paths;
use crate::target::Target;
use std::collections::HashMap;
use std::fmt;
use std::sync::Arc;

/// A step of a plan.
#[derive(Clone, Copy, Debug, PartialEq, Eq, Hash)]
pub enum Step<'p> {
    /// Locks the node of this path.
    Lock(&'p str),
    /// Unlocks it.
    Unlock(&'p str),
    /// Does the access of this number.
    Access(usize),
}

/// A row of a flow, of one node that every legal plan locks: what flows along each of its constraints
/// (docs/CERTIFICATE.md).
#[derive(Clone, Copy, Debug, PartialEq, Eq, Hash)]
pub struct FlowRow<'p> {
    /// The path of the node.
    pub node: &'p str,
    /// Prices that its parent is locked no later.
    pub above: u64,
    /// Prices that the parent is still held when it is locked.
    pub held: u64,
    /// Prices that it is locked before its first access.
    pub first: u64,
    /// Prices that it is kept until its last access is done.
    pub last: u64,
    /// Prices that it isn't released before it is locked.
    pub own: u64,
}

/// A plan of a list, what it costs, and the flow that proves that no legal plan costs less, which is made when it is
/// first read. A clone is the same plan: it takes no more than a count.
#[derive(Clone)]
pub struct Plan(Arc<Inner>);

struct Inner {
    cost: u64,
    steps: Box<[NumberedStep]>,
    flow: Flow,
    paths: Arc<Paths>,
}

impl Plan {
    /// A plan that somebody else has made. Nothing is looked at yet: [`Tree::check`](crate::Tree::check) does so.
    pub fn new<'p>(
        cost: u64,
        steps: impl IntoIterator<Item = Step<'p>>,
        flow: impl IntoIterator<Item = FlowRow<'p>>,
    ) -> Plan {
        let mut named = Named::default();
        let steps = steps.into_iter().map(|it| named.step(it)).collect();
        let rows = flow.into_iter().map(|it| named.row(it)).collect();
        Plan(Arc::new(Inner {
            cost,
            steps,
            flow: Flow::Given(rows),
            paths: Arc::new(named.paths),
        }))
    }

    /// The settled plan of a list, with its cost and its steps.
    pub(crate) fn settled(cost: u64, steps: Vec<NumberedStep>, list: Settled) -> Plan {
        Plan(Arc::new(Inner {
            cost,
            steps: steps.into(),
            paths: Arc::clone(list.paths()),
            flow: Flow::of(list),
        }))
    }

    /// Weight times holding, added up over all nodes.
    pub fn cost(&self) -> u64 {
        self.0.cost
    }

    /// The steps, in order.
    pub fn steps(&self) -> impl ExactSizeIterator<Item = Step<'_>> + Clone {
        let path = |node| self.0.paths.path(node);
        self.0.steps.iter().map(move |step| match *step {
            NumberedStep::Lock(node) => Step::Lock(path(node)),
            NumberedStep::Unlock(node) => Step::Unlock(path(node)),
            NumberedStep::Access(number) => Step::Access(number as usize),
        })
    }

    /// What proves that no legal plan costs less: a row for each node that every legal plan locks, in the tree's order.
    ///
    /// # Errors
    ///
    /// [`Error::NoMemory`], of a plan that a tree has made.
    pub fn flow(&self) -> Result<impl ExactSizeIterator<Item = FlowRow<'_>> + Clone, Error> {
        Ok(self.numbered_rows()?.iter().map(|row| FlowRow {
            node: self.0.paths.path(row.node),
            above: row.above,
            held: row.held,
            first: row.first,
            last: row.last,
            own: row.own,
        }))
    }

    pub(crate) fn numbered_steps(&self) -> &[NumberedStep] {
        &self.0.steps
    }

    pub(crate) fn numbered_rows(&self) -> Result<&[NumberedRow], Error> {
        self.0.flow.rows()
    }

    /// The list of which a tree has made it.
    pub(crate) fn list(&self) -> Option<&[Target]> {
        self.0.flow.list()
    }

    pub(crate) fn paths(&self) -> &Arc<Paths> {
        &self.0.paths
    }
}

impl PartialEq for Plan {
    /// Nothing equals a plan whose flow can't be made for want of memory, but for its clones.
    fn eq(&self, other: &Plan) -> bool {
        let same = |(own, others)| Iterator::eq(own, others);
        Arc::ptr_eq(&self.0, &other.0)
            || self.cost() == other.cost()
                && self.steps().eq(other.steps())
                && self.flow().ok().zip(other.flow().ok()).is_some_and(same)
    }
}

impl Eq for Plan {}

impl fmt::Debug for Plan {
    fn fmt(&self, out: &mut fmt::Formatter<'_>) -> fmt::Result {
        out.debug_struct("Plan")
            .field("cost", &self.cost())
            .field("steps", &self.steps().collect::<Vec<_>>())
            .field("flow", &self.flow().map(Iterator::collect::<Vec<_>>))
            .finish()
    }
}

/// Paths by numbers in the order in which they come.
#[derive(Default)]
struct Named<'p> {
    paths: Paths,
    number_of: HashMap<&'p str, u32>,
}

impl<'p> Named<'p> {
    fn number(&mut self, path: &'p str) -> u32 {
        *self.number_of.entry(path).or_insert_with(|| {
            self.paths.push(path);
            self.paths.len() as u32 - 1
        })
    }

    fn step(&mut self, step: Step<'p>) -> NumberedStep {
        match step {
            Step::Lock(path) => NumberedStep::Lock(self.number(path)),
            Step::Unlock(path) => NumberedStep::Unlock(self.number(path)),
            Step::Access(number) => NumberedStep::Access(access_number(number)),
        }
    }

    fn row(&mut self, row: FlowRow<'p>) -> NumberedRow {
        NumberedRow {
            node: self.number(row.node),
            above: row.above,
            held: row.held,
            first: row.first,
            last: row.last,
            own: row.own,
        }
    }
}

/// The number of an access. None that is too large for it is one of a list.
pub(crate) fn access_number(number: usize) -> u32 {
    u32::try_from(number).unwrap_or(u32::MAX)
}

/// What is said of a list that is done alone, by a legal plan.
#[derive(Clone, Debug, PartialEq, Eq)]
#[non_exhaustive]
pub struct Judgement {
    /// What the plan costs.
    pub cost: u64,
    /// The reply of each access.
    pub replies: Vec<Reply>,
    /// The record of each node, in the tree's order.
    pub records: Vec<i64>,
}
