use crate::error::Error;
use crate::list::{Kept, List};
use crate::locks::Locks;
use crate::program::Action;
use std::cell::RefCell;
use std::fmt;
use std::marker::PhantomData;
use std::ops::{Deref, DerefMut};
use std::sync::{MutexGuard, TryLockError};
use std::time::Instant;

/// A transaction that has begun. It stays with its thread.
///
/// ```
/// # use pickbracken::Locks;
/// # fn main() -> Result<(), pickbracken::Error> {
/// # let locks = Locks::new([("/north/a", 1), ("/north/b", 1)], |_| 10)?;
/// let list = locks.list(["/north/a", "/north/b"])?.whole();
/// let mut transaction = locks.transaction(&list)?;
/// while let Some(mut record) = transaction.access()? {
///     *record -= 1;
/// }
/// if let Some(mut record) = transaction.again(0) {
///     *record += 1;               // undone, before anybody has seen it
/// }
/// transaction.finish()?;
/// # Ok(())
/// # }
/// ```
///
/// Once it is dropped, or all accesses are done, it holds nothing. Until then it does, also after an error: who catches
/// one may undo what was done at the nodes that it holds.
pub struct Transaction<'l, T> {
    locks: &'l Locks<T>,
    program: Kept<'l>,
    /// The number of the action that comes next, and how many accesses were begun.
    next: usize,
    done: usize,
    until: Option<Instant>,
    is_whole: bool,
    /// None once it holds nothing, and won't any more.
    inside: Option<Inside>,
}

impl<'l, T> Transaction<'l, T> {
    pub(crate) fn new(
        locks: &'l Locks<T>,
        id: u64,
        program: Kept<'l>,
        list: &List,
    ) -> Result<Transaction<'l, T>, Error> {
        let limit = list.timeout;
        Ok(Transaction {
            locks,
            program,
            next: 0,
            done: 0,
            until: limit.and_then(|limit| Instant::now().checked_add(limit)),
            is_whole: list.is_whole,
            inside: Some(Inside::enter(id)?),
        })
    }

    /// Goes on to the next access: its record, whose node is held. `None` once all are done.
    ///
    /// # Errors
    ///
    /// [`Error::TimedOut`] and [`Error::Poisoned`]. Called once more, it tries again what has failed.
    pub fn access(&mut self) -> Result<Option<Held<'_, T>>, Error> {
        let locks = self.locks;
        while let Some(&action) = self.program.actions.get(self.next) {
            match action {
                Action::Lock { node, .. } => {
                    if !locks.records[node.number as usize].latch.lock(self.until) {
                        return Err(self.late(node.number));
                    }
                }
                Action::Unlock { node } if self.is_whole && node.is_accessed => {}
                Action::Unlock { node } => locks.records[node.number as usize].latch.unlock(),
                Action::Access { access, node } => return self.hold(access, node).map(Some),
            }
            self.next += 1;
        }
        if !self.is_whole {
            self.inside = None;
        }
        Ok(None)
    }

    /// The record of an access that was done, once more: if its node is held still, as with [`List::whole`] it is.
    pub fn again(&mut self, number: usize) -> Option<Held<'_, T>> {
        let node = self
            .program
            .node_of(number)
            .filter(|_| number < self.done)?;
        let is_held = self.inside.is_some() && self.held().any(|it| it == node);
        let value = &self.locks.records[node as usize].value;
        let record = is_held.then(|| value.try_lock().ok()).flatten()?;
        Some(Held { number, record })
    }

    /// How many accesses were begun.
    pub fn done(&self) -> usize {
        self.done
    }

    /// Ends it.
    ///
    /// # Errors
    ///
    /// [`Error::Unfinished`] if not all accesses were begun.
    pub fn finish(self) -> Result<(), Error> {
        let (done, wanted) = (self.done, self.program.accesses);
        if done < wanted {
            return Err(Error::Unfinished { done, wanted });
        }
        Ok(())
    }

    pub(crate) fn accesses(&self) -> usize {
        self.program.accesses
    }

    fn hold(&mut self, access: u32, node: u32) -> Result<Held<'_, T>, Error> {
        let number = access as usize;
        match self.locks.records[node as usize].value.try_lock() {
            Ok(record) => {
                (self.next, self.done) = (self.next + 1, number + 1);
                Ok(Held { number, record })
            }
            Err(TryLockError::Poisoned(_)) => {
                let path = self.path(node);
                Err(Error::Poisoned { path, done: number })
            }
            Err(TryLockError::WouldBlock) => panic!("a record of {} was leaked", self.path(node)),
        }
    }

    #[cold]
    fn late(&self, node: u32) -> Error {
        let (path, done) = (self.path(node), self.done);
        Error::TimedOut { path, done }
    }

    fn path(&self, node: u32) -> String {
        self.locks.nodes.path(node).to_owned()
    }

    /// The nodes that it holds.
    fn held(&self) -> impl Iterator<Item = u32> {
        self.program.held_after(self.next, self.is_whole)
    }
}

impl<T> Drop for Transaction<'_, T> {
    fn drop(&mut self) {
        if self.inside.is_some() {
            for node in self.held() {
                self.locks.records[node as usize].latch.unlock();
            }
        }
    }
}

impl<T> fmt::Debug for Transaction<'_, T> {
    fn fmt(&self, out: &mut fmt::Formatter<'_>) -> fmt::Result {
        out.debug_struct("Transaction")
            .field("done", &self.done)
            .field("accesses", &self.program.accesses)
            .finish_non_exhaustive()
    }
}

/// The record of an access, whose node this thread holds. If it is leaked (`mem::forget`), nobody has the record again.
#[derive(Debug)]
pub struct Held<'t, T> {
    number: usize,
    record: MutexGuard<'t, T>,
}

impl<T> Held<'_, T> {
    /// The access's place in the list, counted from 0.
    pub fn number(&self) -> usize {
        self.number
    }
}

impl<T> Deref for Held<'_, T> {
    type Target = T;

    fn deref(&self) -> &T {
        &self.record
    }
}

impl<T> DerefMut for Held<'_, T> {
    fn deref_mut(&mut self) -> &mut T {
        &mut self.record
    }
}

thread_local! {
    /// The numbers of the locks that this thread is in a transaction of.
    static INSIDE: RefCell<Vec<u64>> = const { RefCell::new(Vec::new()) };
}

/// That this thread is in a transaction of the locks of a number. It may not go to another thread.
struct Inside(u64, PhantomData<MutexGuard<'static, ()>>);

impl Inside {
    fn enter(locks: u64) -> Result<Inside, Error> {
        let is_new = INSIDE.try_with(|inside| {
            let mut inside = inside.borrow_mut();
            let is_new = !inside.contains(&locks);
            if is_new {
                inside.push(locks);
            }
            is_new
        });
        // While a thread ends there is nothing to note it in.
        if is_new.unwrap_or(true) {
            Ok(Inside(locks, PhantomData))
        } else {
            Err(Error::Nested)
        }
    }
}

impl Drop for Inside {
    fn drop(&mut self) {
        let _ = INSIDE.try_with(|inside| {
            let mut inside = inside.borrow_mut();
            let found = inside.iter().rposition(|it| *it == self.0);
            found.map(|at| inside.swap_remove(at))
        });
    }
}
