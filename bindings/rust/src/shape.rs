//! Plans of lists over parts of trees, each kept for all lists of its shape.

use crate::bounded::Bounded;
use crate::error::Error;
use crate::library::plan_part;
use crate::numbers::{Accesses, NumberedStep, PartNode};
use crate::unpoisoned;
use std::sync::{Arc, Mutex};

/// So many shapes are kept; then all are forgotten.
const MOST_SHAPES: usize = 1_024;

/// What a plan depends on: a part of a tree, whose nodes have their places for numbers; and of each access the place of
/// its node, and its length.
#[derive(Clone, Debug, PartialEq, Eq, Hash)]
pub(crate) struct Shape {
    pub(crate) rows: Vec<PartNode>,
    pub(crate) places: Vec<u32>,
    pub(crate) lengths: Vec<u32>,
}

/// The steps of a plan of a shape.
pub(crate) type PlacedSteps = Arc<[NumberedStep]>;

/// What makes a plan of a shape.
pub(crate) type Planner = Box<dyn Fn(&Shape) -> Result<Vec<NumberedStep>, Error> + Send + Sync>;

/// The settled plan of a shape, by the library.
pub(crate) fn settled(shape: &Shape) -> Result<Vec<NumberedStep>, Error> {
    let list = Accesses {
        nodes: &shape.places,
        lengths: &shape.lengths,
    };
    Ok(plan_part(&shape.rows, list, false)?.steps)
}

/// The plans of shapes, each made when it is first asked for. Any number of threads may ask at once; a plan that two
/// ask for at the same time may be made twice.
pub(crate) struct Plans {
    planner: Planner,
    kept: Mutex<Bounded<Shape, PlacedSteps>>,
}

impl Plans {
    pub(crate) fn new(planner: Planner) -> Plans {
        let kept = Mutex::new(Bounded::new(MOST_SHAPES));
        Plans { planner, kept }
    }

    pub(crate) fn plan(&self, shape: Shape) -> Result<PlacedSteps, Error> {
        if let Some(found) = unpoisoned(self.kept.lock()).get(&shape) {
            return Ok(Arc::clone(found));
        }
        let made: PlacedSteps = (self.planner)(&shape)?.into();
        let (kept, steps) = (Arc::clone(&made), made.len());
        unpoisoned(self.kept.lock()).keep(shape, kept, steps);
        Ok(made)
    }
}
