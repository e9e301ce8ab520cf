use crate::error::Error;
use crate::list::{KeptList, List};
use crate::transaction::Transaction;
use pickbracken::{Access, Tree, Wanted};
use std::fmt;
use std::sync::atomic::{AtomicU64, Ordering};
use std::sync::{Arc, PoisonError, RwLock};
use tokio::sync::Mutex;

/// A lock of tokio and a record for each node of a tree, for transactions of any number of tasks.
///
/// However a transaction ends, all that it holds is let go, also if its task is cancelled. Nothing is undone: others
/// have seen what was done at a node that was let go before. [`List::whole`] holds accessed nodes to the end, for who
/// has to undo. A record isn't poisoned by a panic, and may be half changed then.
///
/// A task is in one transaction of these locks at a time: of two in one each could wait for the other, and nobody sees
/// that.
pub struct Locks<T> {
    id: u64,
    tree: RwLock<(u64, Arc<Tree>)>,
    pub(crate) nodes: Box<[Node<T>]>,
}

/// What a node has, and how often it was waited for.
pub(crate) struct Node<T> {
    pub(crate) path: String,
    pub(crate) record: Arc<Mutex<T>>,
    pub(crate) waits: AtomicU64,
}

impl<T> Locks<T> {
    /// The nodes of these paths and all above them, each with its weight: 1 to 1,000, and 1 if it isn't named.
    /// `record_of` gives the record of each path.
    ///
    /// # Errors
    ///
    /// [`Error::Plan`] of what is no path from the root down, and of other weights.
    pub fn new<'p>(
        weights: impl IntoIterator<Item = (&'p str, u32)>,
        mut record_of: impl FnMut(&str) -> T,
    ) -> Result<Locks<T>, Error> {
        static NEXT: AtomicU64 = AtomicU64::new(0);
        let tree = Tree::from_paths(weights)?;
        let node = |path: &str| Node {
            path: path.to_owned(),
            record: Arc::new(Mutex::new(record_of(path))),
            waits: AtomicU64::new(0),
        };
        Ok(Locks {
            id: NEXT.fetch_add(1, Ordering::Relaxed),
            nodes: tree.paths().map(node).collect(),
            tree: RwLock::new((0, Arc::new(tree))),
        })
    }

    /// The list of accesses of these nodes, in this order: of paths, or of paths with the slots that they take. Make it
    /// once for many runs.
    ///
    /// # Errors
    ///
    /// [`Error::Plan`] if there is no such node or length, or there are more than 64 accesses.
    pub fn list<'p, W: Into<Wanted<'p>>>(
        &self,
        wanted: impl IntoIterator<Item = W>,
    ) -> Result<List, Error> {
        let accesses = wanted.into_iter().map(|it| Access::from(it.into()));
        let kept = KeptList {
            locks: self.id,
            accesses: accesses.collect(),
            program: Default::default(),
        };
        let (epoch, tree) = self.tree();
        kept.program(epoch, &tree)?;
        Ok(List {
            kept: Arc::new(kept),
            timeout: None,
            is_whole: false,
        })
    }

    /// Begins a transaction, which takes its first lock with its first access. It may go from thread to thread with
    /// its task.
    ///
    /// # Errors
    ///
    /// [`Error::Foreign`] of a list of other locks; [`Error::Plan`] if there is no memory for a plan.
    pub fn transaction<'l>(&'l self, list: &List) -> Result<Transaction<'l, T>, Error> {
        if list.kept.locks != self.id {
            return Err(Error::Foreign);
        }
        let (epoch, tree) = self.tree();
        let program = list.kept.program(epoch, &tree)?;
        Ok(Transaction::new(self, program, list))
    }

    /// The weight of each node, in the tree's order.
    pub fn weights(&self) -> Vec<(&str, u32)> {
        let (_, tree) = self.tree();
        let weights = tree.weights().iter().copied();
        self.nodes
            .iter()
            .map(|it| it.path.as_str())
            .zip(weights)
            .collect()
    }

    /// How often each node was waited for since the last reweighing, of those that were, and 1,000 at most.
    pub fn waits(&self) -> Vec<(&str, u32)> {
        let all = self.nodes.iter();
        let told = all.map(|it| (it.path.as_str(), told(it.waits.load(Ordering::Relaxed))));
        told.filter(|(_, waits)| *waits > 0).collect()
    }

    /// Makes new weights of the old ones and the waits (docs/PROTOCOL.md has the rule), and gives how many have
    /// changed. Transactions that have begun go on by their plans, which are legal by any weights.
    ///
    /// # Errors
    ///
    /// [`Error::Plan`] if there is no memory; the weights are as they were, and waits are lost.
    pub fn reweigh(&self) -> Result<usize, Error> {
        let mut tree = self.tree.write().unwrap_or_else(PoisonError::into_inner);
        let waits = self
            .nodes
            .iter()
            .map(|it| told(it.waits.swap(0, Ordering::Relaxed)));
        let mut new = Tree::clone(&tree.1);
        let changed = new.reweigh(&waits.collect::<Vec<u32>>())?;
        *tree = (tree.0 + 1, Arc::new(new));
        Ok(changed)
    }

    /// The tree by the weights of now, and which time it is that they were made.
    fn tree(&self) -> (u64, Arc<Tree>) {
        let tree = self.tree.read().unwrap_or_else(PoisonError::into_inner);
        (tree.0, Arc::clone(&tree.1))
    }
}

/// So many waits as are told of a node.
fn told(waits: u64) -> u32 {
    waits.min(1_000) as u32
}

impl<T> fmt::Debug for Locks<T> {
    fn fmt(&self, out: &mut fmt::Formatter<'_>) -> fmt::Result {
        out.debug_struct("Locks")
            .field("nodes", &self.nodes.len())
            .finish_non_exhaustive()
    }
}
