use crate::access::Access;
use crate::claim::Claim;
use crate::drawing::{Form, drawn};
use crate::error::Error;
use crate::flow::Settled;
use crate::kept::{Kept, Whole};
use crate::library::KeptTree;
use crate::nodes::Nodes;
use crate::numbers::Arrays;
use crate::part::MOST_NODES;
use crate::paths::names_of;
use crate::plan::{Judgement, Plan, Step};
use crate::target::Targets;
use crate::weighing::{reweighed, weights_of};
use crate::writing::{question, written_tree};
use std::fmt;
use std::sync::Arc;

/// Nodes with a weight and a record each, in preorder, siblings in the order in which they were named. There may be any
/// number of them, and their names are free; a [`Store`](crate::Store) and a drawing take no more than 4,096, at most
/// 32 deep, with names as documents have them (docs/FORMATS.md).
///
/// Plans that were made are kept, some thousands of them, and found again by their lists. Threads that make new ones
/// over one tree wait for each other, and a clone waits for nobody.
#[derive(Clone)]
pub struct Tree {
    nodes: Arc<Nodes>,
    weights: Arc<[u32]>,
    records: Vec<i64>,
    kept: Kept,
}

impl Tree {
    /// A tree of the nodes of these paths, each with its weight, 1 to 1,000; each node above one of them has weight 1
    /// unless it is one of them too. The records are 0. Of a path that comes twice the later weight counts.
    ///
    /// # Errors
    ///
    /// [`Error::BadPath`] of what is no path from the root down, and [`Error::Weight`].
    pub fn from_paths<'p>(
        weights: impl IntoIterator<Item = (&'p str, u32)>,
    ) -> Result<Tree, Error> {
        let given: Vec<(&str, u32)> = weights.into_iter().collect();
        let nodes = Nodes::new(given.iter().map(|(path, _)| *path))?;
        Ok(Tree {
            weights: weights_of(&nodes, &given)?.into(),
            records: vec![0; nodes.len()],
            nodes: Arc::new(nodes),
            kept: Kept::default(),
        })
    }

    /// The same tree with another record at the node of a path.
    ///
    /// # Errors
    ///
    /// [`Error::BadPath`] and [`Error::NoNode`].
    pub fn with_record(mut self, path: &str, record: i64) -> Result<Tree, Error> {
        if names_of(path).is_none() {
            return Err(Error::BadPath(path.to_owned()));
        }
        let number = self.nodes.number(path)?;
        self.records[number as usize] = record;
        Ok(self)
    }

    /// How many nodes there are.
    #[allow(clippy::len_without_is_empty, reason = "there is a root")]
    pub fn len(&self) -> usize {
        self.nodes.len()
    }

    /// The path of each node, in the tree's order: that of weights, waits and records.
    pub fn paths(&self) -> impl ExactSizeIterator<Item = &str> {
        self.nodes.paths.iter()
    }

    /// The place of the node of a path in the tree's order, if there is one.
    pub fn number(&self, path: &str) -> Option<usize> {
        self.nodes.find(path).map(|number| number as usize)
    }

    /// The weight of each node.
    pub fn weights(&self) -> &[u32] {
        &self.weights
    }

    /// Makes new weights of the old ones and of how often each node was waited for (docs/PROTOCOL.md has the rule), and
    /// gives how many have changed. Nodes behind the last wait that is given weren't waited for.
    ///
    /// # Errors
    ///
    /// [`Error::NoMemory`], and the weights are as they were.
    pub fn reweigh(&mut self, waits: &[u32]) -> Result<usize, Error> {
        let waits = waits.iter().copied().chain(std::iter::repeat(0));
        let (weights, changed) = reweighed(&self.weights, waits)?;
        self.weights = weights.into();
        self.kept = Kept::default();
        Ok(changed)
    }

    /// The settled plan of a list: no legal plan costs less, and of all that cost as little it is the latest.
    ///
    /// # Errors
    ///
    /// [`Error::Refused`]: `limit` of more than 64 accesses, `no-path` or `bad-length` of one of them, and `too-deep`
    /// if one is more than 32 below the root. [`Error::NoMemory`].
    pub fn plan(&self, list: &[Access]) -> Result<Plan, Error> {
        let key = Kept::key(list);
        if let Some(plan) = self.kept.plan(key, list, &self.nodes) {
            return Ok(plan);
        }
        let plan = self.made(Settled {
            list: Targets::of_accesses(&self.nodes, list)?[..].into(),
            nodes: Arc::clone(&self.nodes),
            weights: Arc::clone(&self.weights),
        })?;
        self.kept.keep(key, &plan);
        Ok(plan)
    }

    /// What a plan costs that its flow proves to be least; or why that isn't so, whoever made the two. The cost that
    /// the plan has isn't looked at.
    ///
    /// # Errors
    ///
    /// [`Error::Refused`] of the list, as for a plan, or by what is wrong with steps or flow. [`Error::NoMemory`].
    pub fn check(&self, list: &[Access], plan: &Plan) -> Result<u64, Error> {
        let targets = Targets::of_accesses(&self.nodes, list)?;
        self.accepted(&Claim::of_plan(&self.nodes, &targets, plan)?)
    }

    /// What some steps cost, if they are a legal plan of the list, and what the list replies and leaves.
    ///
    /// # Errors
    ///
    /// Those of [`Tree::check`].
    pub fn judge<'p>(
        &self,
        list: &[Access],
        steps: impl IntoIterator<Item = Step<'p>>,
    ) -> Result<Judgement, Error> {
        let targets = Targets::of_accesses(&self.nodes, list)?;
        let cost = self.accepted(&Claim::of_steps(&self.nodes, &targets, steps)?)?;
        let mut records = self.records.clone();
        let both = list.iter().zip(targets.iter());
        let replies =
            both.map(|(access, target)| access.op.done(&mut records[target.node as usize]));
        Ok(Judgement {
            cost,
            replies: replies.collect(),
            records,
        })
    }

    /// The settled plan of a list as a picture.
    ///
    /// # Errors
    ///
    /// [`Error::Refused`] of a tree or a list that a document can't have. [`Error::NoMemory`].
    pub fn draw(&self, list: &[Access], form: Form) -> Result<String, Error> {
        drawn(form, &self.document(&question(list, None::<[Step<'_>; 0]>)))
    }

    /// The same, and above it the picture of some steps, if they are a legal plan of the list.
    ///
    /// # Errors
    ///
    /// As above, or by what is wrong with the steps.
    pub fn draw_beside<'p>(
        &self,
        list: &[Access],
        steps: impl IntoIterator<Item = Step<'p>>,
        form: Form,
    ) -> Result<String, Error> {
        drawn(form, &self.document(&question(list, Some(steps))))
    }

    /// The document of the tree and its records, with the rest of it.
    pub(crate) fn document(&self, rest: &str) -> String {
        written_tree(&self.nodes, &self.weights, &self.records, rest)
    }

    fn made(&self, list: Settled) -> Result<Plan, Error> {
        let arrays = Arrays::of(&list.list);
        let asked = self
            .kept
            .ask(|| self.whole(), |tree| tree.plan(arrays.accesses()))?;
        let planned = asked.unwrap_or_else(|| list.planned(false))?;
        Ok(Plan::settled(planned.cost, planned.steps, list))
    }

    /// What is said of a claim.
    fn accepted(&self, claim: &Claim<'_>) -> Result<u64, Error> {
        let asked = self.kept.ask(|| self.whole(), |tree| claim.ask(tree))?;
        let said = match asked {
            Some(said) => said?,
            None => claim.ask_part(&self.nodes, &self.weights)?,
        };
        said.map_err(|fault| Error::Refused(fault.told(|node| self.nodes.path(node))))
    }

    /// The tree as the library has it.
    fn whole(&self) -> Result<Whole, Error> {
        if self.len() > MOST_NODES {
            return Ok(Whole::InParts);
        }
        let built = KeptTree::build(self.nodes.parents(), &self.weights)?;
        Ok(built.map_or(Whole::InParts, Whole::Kept))
    }
}

impl PartialEq for Tree {
    /// What is kept adds nothing to what a tree is.
    fn eq(&self, other: &Tree) -> bool {
        self.weights == other.weights
            && self.records == other.records
            && (Arc::ptr_eq(&self.nodes, &other.nodes) || self.paths().eq(other.paths()))
    }
}

impl Eq for Tree {}

impl fmt::Debug for Tree {
    fn fmt(&self, out: &mut fmt::Formatter<'_>) -> fmt::Result {
        let both = self.weights.iter().zip(&self.records);
        out.debug_map().entries(self.paths().zip(both)).finish()
    }
}
