//! Flows of plans: the rows that somebody gives, or those of a settled plan, which are made when they are first read.
//! Most plans are run and never checked, and their rows would take more memory than their steps.

use crate::error::Error;
use crate::library::plan_part;
use crate::nodes::Nodes;
use crate::numbers::{Arrays, NumberedRow, Planned};
use crate::part::Part;
use crate::paths::Paths;
use crate::target::Target;
use std::sync::{Arc, OnceLock};

/// A list over a tree as it stood, of which the settled plan is.
pub(crate) struct Settled {
    pub(crate) nodes: Arc<Nodes>,
    pub(crate) weights: Arc<[u32]>,
    pub(crate) list: Box<[Target]>,
}

impl Settled {
    pub(crate) fn paths(&self) -> &Arc<Paths> {
        &self.nodes.paths
    }

    /// The plan over the part of the tree that the list needs.
    pub(crate) fn planned(&self, wants_flow: bool) -> Result<Planned, Error> {
        let list = Arrays::of(&self.list);
        let part = Part::of(&self.nodes, list.accesses().nodes.to_vec())?;
        let rows = part.rows(&self.weights, |_, number| number);
        plan_part(
            &rows,
            list.numbered(|it| part.place(it)).accesses(),
            wants_flow,
        )
    }
}

pub(crate) enum Flow {
    Given(Box<[NumberedRow]>),
    Settled {
        list: Settled,
        made: OnceLock<Box<[NumberedRow]>>,
    },
}

impl Flow {
    pub(crate) fn of(list: Settled) -> Flow {
        Flow::Settled {
            list,
            made: OnceLock::new(),
        }
    }

    pub(crate) fn rows(&self) -> Result<&[NumberedRow], Error> {
        match self {
            Flow::Given(rows) => Ok(rows),
            Flow::Settled { list, made } => match made.get() {
                Some(rows) => Ok(rows),
                None => {
                    let rows = list.planned(true)?.rows;
                    Ok(made.get_or_init(|| rows.into()))
                }
            },
        }
    }

    pub(crate) fn list(&self) -> Option<&[Target]> {
        match self {
            Flow::Given(_) => None,
            Flow::Settled { list, .. } => Some(&list.list),
        }
    }
}
