use crate::error::{Error, Stopped};
use crate::latch::Latch;
use crate::list::{List, Lists, Wanted};
use crate::nodes::Nodes;
use crate::part::Part;
use crate::program::Program;
use crate::shape::{Planner, Plans, Shape, settled};
use crate::target::{Target, Targets};
use crate::transaction::Transaction;
use crate::unpoisoned;
use crate::weighing::{Weighing, told, weights_of};
use std::fmt;
use std::sync::Mutex;
use std::sync::atomic::{AtomicU64, Ordering};

/// A lock and a record for each node of a tree, for transactions of any number of threads. Each takes and lets go its
/// locks as the settled plan of its list says.
///
/// ```
/// use pickbracken::Locks;
///
/// # fn main() -> Result<(), pickbracken::Error> {
/// let locks = Locks::new([("/", 20), ("/north/a", 1), ("/north/b", 1)], |_path| 10)?;
/// let list = locks.list(["/north/a", "/north/b"])?;
/// let left = locks.run(&list, |number, record| {
///     *record += if number == 0 { -1 } else { 1 };    // this thread holds the node of this access
///     *record
/// })?;
/// assert_eq!(left, [9, 11]);
/// # Ok(())
/// # }
/// ```
///
/// The tree may have any size, and its names are free. A node that is accessed is at most 32 below the root.
///
/// However a transaction ends, all that it holds is let go. Nothing is undone: others have seen what was done at a
/// node that was let go before. [`List::whole`] holds accessed nodes to the end, for who has to undo.
///
/// A thread that waits for a node sleeps until the node is let go, or its time is over. For that a node has a lock that
/// is made of a `Mutex` and a `Condvar`, and of a byte that is changed by one atomic operation if nobody waits. The
/// record has a `Mutex` of its own. So a node takes some forty bytes beside record and path.
pub struct Locks<T> {
    id: u64,
    pub(crate) nodes: Nodes,
    pub(crate) records: Box<[Record<T>]>,
    weighing: Weighing,
    plans: Plans,
    lists: Lists,
}

/// What a node has. The record is touched by who holds the latch alone. Its own lock shows the compiler that it is so,
/// and knows if a panic came in between; nobody waits for it.
pub(crate) struct Record<T> {
    pub(crate) latch: Latch,
    pub(crate) value: Mutex<T>,
}

impl<T> Locks<T> {
    /// The nodes of these paths and all above them, each with its weight: 1 to 1,000, and 1 if it isn't named. It says
    /// what it costs others to find the node locked. Of a path that comes twice the later weight counts. `record_of`
    /// gives the record of each path.
    ///
    /// # Errors
    ///
    /// [`Error::BadPath`] of what is no path from the root down, and [`Error::Weight`].
    pub fn new<P: AsRef<str>>(
        weights: impl IntoIterator<Item = (P, u32)>,
        record_of: impl FnMut(&str) -> T,
    ) -> Result<Locks<T>, Error> {
        Locks::planned_by(Box::new(settled), weights, record_of)
    }

    /// The same, with something else that makes the plans of shapes.
    pub(crate) fn planned_by<P: AsRef<str>>(
        planner: Planner,
        weights: impl IntoIterator<Item = (P, u32)>,
        mut record_of: impl FnMut(&str) -> T,
    ) -> Result<Locks<T>, Error> {
        static NEXT: AtomicU64 = AtomicU64::new(0);
        let given: Vec<(P, u32)> = weights.into_iter().collect();
        let paths = given.iter().map(|(path, _)| path.as_ref());
        let nodes = Nodes::new(paths)?;
        let record = |path| Record {
            latch: Latch::default(),
            value: Mutex::new(record_of(path)),
        };
        Ok(Locks {
            id: NEXT.fetch_add(1, Ordering::Relaxed),
            weighing: Weighing::new(weights_of(&nodes, &given)?),
            records: nodes.paths.iter().map(record).collect(),
            nodes,
            plans: Plans::new(planner),
            lists: Lists::new(),
        })
    }

    /// The list of accesses of these nodes, in this order: of paths, or of paths with the slots that they take. Make
    /// it once for many runs; it is kept, but to find it again takes longer than a run. Its plan is made when it is
    /// first run.
    ///
    /// # Errors
    ///
    /// [`Error::NoNode`], and [`Error::Refused`]: `bad-length` if a length isn't 1 to 1,000, `limit` if there are more
    /// than 64 accesses.
    pub fn list<'p, W: Into<Wanted<'p>>>(
        &self,
        wanted: impl IntoIterator<Item = W>,
    ) -> Result<List, Error> {
        let wanted = wanted.into_iter().map(Into::into);
        let targets = Targets::of_wanted(&self.nodes, wanted)?;
        Ok(self.lists.list(self.id, &targets))
    }

    /// Begins a transaction, which takes its first lock with its first access. [`Locks::run`] is all that most need; a
    /// transaction may stop between two accesses, and undo.
    ///
    /// # Errors
    ///
    /// [`Error::Nested`]; [`Error::Foreign`] of a list of other locks; and if the list is run for the first time,
    /// [`Error::Refused`] as `too-deep` or [`Error::NoMemory`].
    pub fn transaction<'l>(&'l self, list: &'l List) -> Result<Transaction<'l, T>, Error> {
        if list.kept.locks != self.id {
            return Err(Error::Foreign);
        }
        let program = list
            .kept
            .program(self.weighing.epoch(), |targets| self.made(targets))?;
        Transaction::new(self, self.id, program, list)
    }

    /// Makes a call for each access of a list, with the access's number, counted from 0, and the record of its node,
    /// which this thread holds meanwhile. Gives what the calls give.
    ///
    /// If a call panics, all is let go that is held, and that record is poisoned, as a `Mutex` is: later accesses of it
    /// are [`Error::Poisoned`], until [`Locks::mend`]. What was done before stays done.
    ///
    /// # Errors
    ///
    /// Those of [`Locks::transaction`]; [`Error::TimedOut`] and [`Error::Poisoned`], with the number of accesses that
    /// were done before, and stay so.
    pub fn run<R>(
        &self,
        list: &List,
        mut access: impl FnMut(usize, &mut T) -> R,
    ) -> Result<Vec<R>, Error> {
        let mut transaction = self.transaction(list)?;
        let mut given = Vec::with_capacity(transaction.accesses());
        while let Some(mut record) = transaction.access()? {
            given.push(access(record.number(), &mut record));
        }
        Ok(given)
    }

    /// The same by calls that may fail. The first that does is the last that is made.
    ///
    /// # Errors
    ///
    /// [`Stopped::Call`] has the call's error with the number of its access, and so of those that were done before;
    /// [`Stopped::Locks`] has the errors of [`Locks::run`].
    pub fn try_run<R, E>(
        &self,
        list: &List,
        mut access: impl FnMut(usize, &mut T) -> Result<R, E>,
    ) -> Result<Vec<R>, Stopped<E>> {
        let mut transaction = self.transaction(list)?;
        let mut given = Vec::with_capacity(transaction.accesses());
        while let Some(mut record) = transaction.access()? {
            let number = record.number();
            let done = access(number, &mut record);
            given.push(done.map_err(|error| Stopped::Call { number, error })?);
        }
        Ok(given)
    }

    /// The weight of each node, in the tree's order.
    pub fn weights(&self) -> Vec<(&str, u32)> {
        let (_, weights) = self.weighing.now();
        self.by_path(weights.iter().copied()).collect()
    }

    /// How often each node was waited for since the last reweighing, of those that were, and 1,000 at most.
    pub fn waits(&self) -> Vec<(&str, u32)> {
        let waits = self.records.iter().map(|it| told(it.latch.waits()));
        self.by_path(waits)
            .filter(|(_, waits)| *waits > 0)
            .collect()
    }

    /// Makes new weights of the old ones and the waits (docs/PROTOCOL.md has the rule), and gives how many have
    /// changed. Transactions that have begun go on by their plans, which are legal by any weights. Do so now and then.
    pub fn reweigh(&self) -> usize {
        let waits = self.records.iter().map(|it| it.latch.take_waits());
        let changed = self.weighing.reweigh(waits);
        self.lists.forget();
        changed
    }

    /// Has the record of a node taken as it is, if a panic came in an access of it.
    ///
    /// # Errors
    ///
    /// [`Error::NoNode`].
    pub fn mend(&self, path: &str) -> Result<(), Error> {
        let number = self.nodes.number(path)?;
        self.records[number as usize].value.clear_poison();
        Ok(())
    }

    /// Each path with its record, also of one that a panic has left, in the tree's order.
    pub fn into_records(self) -> impl Iterator<Item = (String, T)> {
        let records = self.records.into_iter();
        let values = records.map(|it| unpoisoned(it.value.into_inner()));
        let paths = self.nodes.paths;
        (0..)
            .zip(values)
            .map(move |(number, value)| (paths.path(number).to_owned(), value))
    }

    fn by_path(&self, each: impl Iterator<Item = u32>) -> impl Iterator<Item = (&str, u32)> {
        self.nodes.paths.iter().zip(each)
    }

    /// The program of a list by the weights of now.
    fn made(&self, list: &[Target]) -> Result<Program, Error> {
        let (epoch, weights) = self.weighing.now();
        let part = Part::of(&self.nodes, list.iter().map(|it| it.node).collect())?;
        let shape = Shape {
            rows: part.rows(&weights, |place, _| place),
            places: list.iter().map(|it| part.place(it.node)).collect(),
            lengths: list.iter().map(|it| it.length).collect(),
        };
        let plan = self.plans.plan(shape)?;
        self.lists.count(plan.len());
        Ok(Program::new(epoch, list, &part.numbers, &plan))
    }
}

impl<T> fmt::Debug for Locks<T> {
    fn fmt(&self, out: &mut fmt::Formatter<'_>) -> fmt::Result {
        let nodes = self.records.len();
        out.debug_struct("Locks")
            .field("nodes", &nodes)
            .finish_non_exhaustive()
    }
}

#[cfg(test)]
mod tests {
    use super::Locks;
    use crate::error::Error;
    use crate::numbers::{NumberedStep, PartNode};
    use crate::shape::Shape;
    use std::sync::{Arc, Mutex};

    type Asked = Arc<Mutex<Vec<Shape>>>;

    /// A plan that locks all first, and unlocks it in the end.
    fn throughout(shape: &Shape) -> Vec<NumberedStep> {
        let places = || 0..shape.rows.len() as u32;
        let accesses = 0..shape.places.len() as u32;
        let locks = places().map(NumberedStep::Lock);
        let unlocks = places().map(NumberedStep::Unlock);
        locks
            .chain(accesses.map(NumberedStep::Access))
            .chain(unlocks)
            .collect()
    }

    /// A shape by the parents and the weights of its nodes, whose accesses take a slot each.
    fn shape(nodes: &[(u32, u32)], places: &[u32]) -> Shape {
        let row = |(number, &(parent, weight)): (u32, &(u32, u32))| PartNode {
            number,
            parent,
            weight,
        };
        Shape {
            rows: (0..).zip(nodes).map(row).collect(),
            places: places.into(),
            lengths: vec![1; places.len()],
        }
    }

    /// Locks of two groups with a leaf each, and the shapes that are planned for them.
    fn watched() -> (Locks<u32>, Asked) {
        let asked = Asked::default();
        let seen = Arc::clone(&asked);
        let planner = move |shape: &Shape| {
            seen.lock().unwrap().push(shape.clone());
            Ok(throughout(shape))
        };
        let weights = [("/", 9), ("/g", 3), ("/g/a", 1), ("/h", 3), ("/h/b", 1)];
        let locks = Locks::planned_by(Box::new(planner), weights, |_| 0);
        (locks.unwrap(), asked)
    }

    fn run(locks: &Locks<u32>, paths: &[&str]) -> Result<Vec<()>, Error> {
        locks.run(&locks.list(paths)?, |_, record| *record += 1)
    }

    #[test]
    fn a_plan_serves_all_lists_of_its_shape() {
        let (locks, asked) = watched();
        for paths in [["/g", "/g/a"], ["/h", "/h/b"], ["/g", "/g/a"]] {
            run(&locks, &paths).unwrap();
        }
        let pair = shape(&[(0, 9), (0, 3), (1, 1)], &[1, 2]);
        assert_eq!(*asked.lock().unwrap(), [pair]);
        run(&locks, &["/h/b", "/g"]).unwrap();
        let fork = shape(&[(0, 9), (0, 3), (0, 3), (2, 1)], &[3, 1]);
        assert_eq!(asked.lock().unwrap()[1..], [fork]);
        let records: Vec<u32> = locks.into_records().map(|(_, record)| record).collect();
        assert_eq!(records, [0, 3, 2, 1, 2]);
    }

    #[test]
    fn a_list_is_planned_anew_after_a_reweighing() {
        let (locks, asked) = watched();
        let list = locks.list(["/g", "/h/b"]).unwrap();
        for planned in 1..=3 {
            for _ in 0..2 {
                locks.run(&list, |_, _| ()).unwrap();
                assert_eq!(asked.lock().unwrap().len(), planned);
            }
            locks.reweigh();
        }
    }
}
