use crate::access::Access;
use crate::bounded::Bounded;
use crate::error::Error;
use crate::program::Program;
use crate::target::Target;
use crate::unpoisoned;
use std::fmt;
use std::ops::Deref;
use std::sync::{Arc, Mutex, OnceLock};
use std::time::Duration;

/// So many lists are kept; then all are forgotten.
const MOST_LISTS: usize = 4_096;

/// An access that a list is to have: the path of its node, or the path with the slots that it takes, 1 to 1,000.
///
/// ```
/// use pickbracken::Wanted;
///
/// let wanted: [Wanted; 2] = ["/north/a".into(), ("/north/b", 3).into()];
/// ```
#[derive(Clone, Copy, Debug, PartialEq, Eq)]
pub struct Wanted<'p> {
    pub(crate) path: &'p str,
    pub(crate) length: u64,
}

impl<'p, P: AsRef<str> + ?Sized> From<&'p P> for Wanted<'p> {
    fn from(path: &'p P) -> Wanted<'p> {
        Wanted::from((path, 1))
    }
}

impl<'p, P: AsRef<str> + ?Sized> From<(&'p P, u64)> for Wanted<'p> {
    fn from((path, length): (&'p P, u64)) -> Wanted<'p> {
        let path = path.as_ref();
        Wanted { path, length }
    }
}

impl From<Wanted<'_>> for Access {
    /// An access that only reads, for a plan.
    fn from(wanted: Wanted<'_>) -> Access {
        Access::get(wanted.path).lasting(wanted.length)
    }
}

/// The accesses of a kind of transactions over some [`Locks`](crate::Locks), which makes it, and how they are to be
/// run. Its plan is made when it is first run, and again after a reweighing. A clone shares it.
#[derive(Clone)]
pub struct List {
    pub(crate) kept: Arc<KeptList>,
    pub(crate) timeout: Option<Duration>,
    pub(crate) is_whole: bool,
}

impl List {
    /// The same list, whose runs wait for so long at most, each from its beginning on and for all its nodes together.
    #[must_use]
    pub fn timeout(self, limit: Duration) -> List {
        let timeout = Some(limit);
        List { timeout, ..self }
    }

    /// The same list, whose runs hold each node that they have accessed to their end. So they can undo what they did
    /// before anybody has seen it.
    #[must_use]
    pub fn whole(self) -> List {
        List {
            is_whole: true,
            ..self
        }
    }
}

impl fmt::Debug for List {
    fn fmt(&self, out: &mut fmt::Formatter<'_>) -> fmt::Result {
        out.debug_struct("List")
            .field("accesses", &self.kept.targets.len())
            .field("timeout", &self.timeout)
            .field("whole", &self.is_whole)
            .finish()
    }
}

/// The nodes and the lengths of a list over the locks of this number, with its programs: that of its first run, and the
/// one that was last needed since a reweighing. The first stays as long as the list does, so that threads which run it
/// side by side share it without a count.
pub(crate) struct KeptList {
    pub(crate) locks: u64,
    pub(crate) targets: Box<[Target]>,
    first: OnceLock<Program>,
    latest: Mutex<Option<Arc<Program>>>,
}

/// A program of a list.
pub(crate) enum Kept<'l> {
    First(&'l Program),
    Latest(Arc<Program>),
}

impl Deref for Kept<'_> {
    type Target = Program;

    #[inline]
    fn deref(&self) -> &Program {
        match self {
            Kept::First(program) => program,
            Kept::Latest(program) => program,
        }
    }
}

impl KeptList {
    fn new(locks: u64, targets: &[Target]) -> KeptList {
        KeptList {
            locks,
            targets: targets.into(),
            first: OnceLock::new(),
            latest: Mutex::default(),
        }
    }

    /// The program of an epoch, which is made if there is none.
    #[inline]
    pub(crate) fn program(
        &self,
        epoch: u64,
        make: impl FnOnce(&[Target]) -> Result<Program, Error>,
    ) -> Result<Kept<'_>, Error> {
        match self.first.get() {
            Some(program) if program.epoch == epoch => Ok(Kept::First(program)),
            _ => self.other_program(epoch, make),
        }
    }

    /// The same, where the first program isn't it. Of threads that need it each waits for the one before.
    #[cold]
    fn other_program(
        &self,
        epoch: u64,
        make: impl FnOnce(&[Target]) -> Result<Program, Error>,
    ) -> Result<Kept<'_>, Error> {
        let mut latest = unpoisoned(self.latest.lock());
        if let Some(program) = latest.as_ref().filter(|it| it.epoch == epoch) {
            return Ok(Kept::Latest(Arc::clone(program)));
        }
        if let Some(program) = self.first.get().filter(|it| it.epoch == epoch) {
            return Ok(Kept::First(program));
        }
        let made = make(&self.targets)?;
        if self.first.get().is_none() {
            return Ok(Kept::First(self.first.get_or_init(|| made)));
        }
        let made = latest.insert(Arc::new(made));
        Ok(Kept::Latest(Arc::clone(made)))
    }
}

/// The lists that were asked for, by their nodes and lengths.
pub(crate) struct Lists(Mutex<Bounded<Box<[Target]>, Arc<KeptList>>>);

impl Lists {
    pub(crate) fn new() -> Lists {
        Lists(Mutex::new(Bounded::new(MOST_LISTS)))
    }

    /// The list of these accesses over the locks of a number.
    pub(crate) fn list(&self, locks: u64, targets: &[Target]) -> List {
        let mut lists = unpoisoned(self.0.lock());
        let found = lists.get(targets).map(Arc::clone);
        let kept = found.unwrap_or_else(|| {
            let list = Arc::new(KeptList::new(locks, targets));
            lists.keep(targets.into(), Arc::clone(&list), 0);
            list
        });
        List {
            kept,
            timeout: None,
            is_whole: false,
        }
    }

    /// Counts the steps of a program that was made.
    pub(crate) fn count(&self, steps: usize) {
        unpoisoned(self.0.lock()).count(steps);
    }

    pub(crate) fn forget(&self) {
        unpoisoned(self.0.lock()).forget();
    }
}
