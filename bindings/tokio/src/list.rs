use pickbracken::{Access, Plan, Step, Tree};
use std::fmt;
use std::sync::{Arc, Mutex, PoisonError};
use std::time::Duration;

/// The accesses of a kind of transactions over some [`Locks`](crate::Locks), which makes it, and how they are to be
/// run. Its plan is made when it is first run, and again after a reweighing. A clone shares it.
#[derive(Clone)]
pub struct List {
    pub(crate) kept: Arc<KeptList>,
    pub(crate) timeout: Option<Duration>,
    pub(crate) is_whole: bool,
}

impl List {
    /// The same list, whose runs wait for so long at most, each from its beginning on and for all its nodes together.
    #[must_use]
    pub fn timeout(self, limit: Duration) -> List {
        let timeout = Some(limit);
        List { timeout, ..self }
    }

    /// The same list, whose runs hold each node that they have accessed to their end. So they can undo what they did
    /// before anybody has seen it.
    #[must_use]
    pub fn whole(self) -> List {
        List {
            is_whole: true,
            ..self
        }
    }
}

impl fmt::Debug for List {
    fn fmt(&self, out: &mut fmt::Formatter<'_>) -> fmt::Result {
        out.debug_struct("List")
            .field("accesses", &self.kept.accesses.len())
            .field("timeout", &self.timeout)
            .field("whole", &self.is_whole)
            .finish()
    }
}

/// What a list is of, and its last program.
pub(crate) struct KeptList {
    pub(crate) locks: u64,
    pub(crate) accesses: Box<[Access]>,
    pub(crate) program: Mutex<Option<Arc<Program>>>,
}

impl KeptList {
    /// The program of an epoch, which is made if there is none.
    pub(crate) fn program(
        &self,
        epoch: u64,
        tree: &Tree,
    ) -> Result<Arc<Program>, pickbracken::Error> {
        let mut kept = self.program.lock().unwrap_or_else(PoisonError::into_inner);
        if let Some(program) = kept.as_ref().filter(|it| it.epoch == epoch) {
            return Ok(Arc::clone(program));
        }
        let plan = tree.plan(&self.accesses)?;
        let made = Arc::new(Program::new(epoch, tree, &self.accesses, &plan));
        Ok(Arc::clone(kept.insert(made)))
    }
}

/// What is done at a step, at the node of a number.
#[derive(Clone, Copy)]
pub(crate) enum Action {
    Lock(usize),
    Unlock { node: usize, is_accessed: bool },
    Access { number: usize, node: usize },
}

/// The steps of a list by the weights of an epoch.
pub(crate) struct Program {
    epoch: u64,
    pub(crate) actions: Box<[Action]>,
    pub(crate) nodes: Box<[usize]>,
}

impl Program {
    fn new(epoch: u64, tree: &Tree, accesses: &[Access], plan: &Plan) -> Program {
        let number = |path| tree.number(path).expect("it is a node of the tree");
        let nodes: Box<[usize]> = accesses.iter().map(|it| number(&it.path)).collect();
        let action = |step| match step {
            Step::Lock(path) => Action::Lock(number(path)),
            Step::Unlock(path) => Action::Unlock {
                node: number(path),
                is_accessed: nodes.contains(&number(path)),
            },
            Step::Access(access) => Action::Access {
                number: access,
                node: nodes[access],
            },
        };
        Program {
            epoch,
            actions: plan.steps().map(action).collect(),
            nodes,
        }
    }
}
