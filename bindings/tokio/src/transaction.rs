use crate::error::Error;
use crate::list::{Action, List, Program};
use crate::locks::Locks;
use std::fmt;
use std::ops::{Deref, DerefMut};
use std::sync::Arc;
use std::sync::atomic::Ordering;
use tokio::sync::OwnedMutexGuard;
use tokio::time::{Instant, timeout_at};

/// A transaction that has begun.
///
/// Once it is dropped, or all accesses are done, it holds nothing; with [`List::whole`] only once it is dropped. Until
/// then it does, also after an error.
pub struct Transaction<'l, T> {
    locks: &'l Locks<T>,
    program: Arc<Program>,
    /// The number of the action that comes next, and how many accesses were begun.
    next: usize,
    done: usize,
    until: Option<Instant>,
    is_whole: bool,
    held: Vec<(usize, OwnedMutexGuard<T>)>,
}

impl<'l, T> Transaction<'l, T> {
    pub(crate) fn new(locks: &'l Locks<T>, program: Arc<Program>, list: &List) -> Self {
        let limit = list.timeout;
        Transaction {
            locks,
            program,
            next: 0,
            done: 0,
            until: limit.and_then(|limit| Instant::now().checked_add(limit)),
            is_whole: list.is_whole,
            held: Vec::new(),
        }
    }

    /// Goes on to the next access: its record, whose node is held. `None` once all are done. Nothing is lost if what
    /// this gives is dropped while it waits: called once more, it goes on.
    ///
    /// # Errors
    ///
    /// [`Error::TimedOut`]. Called once more, it tries again what has failed.
    pub async fn access(&mut self) -> Result<Option<Held<'_, T>>, Error> {
        while let Some(&action) = self.program.actions.get(self.next) {
            match action {
                Action::Lock(node) => {
                    let guard = self.had(node).await?;
                    self.held.push((node, guard));
                }
                Action::Unlock { is_accessed, .. } if self.is_whole && is_accessed => {}
                Action::Unlock { node, .. } => self.held.retain(|(held, _)| *held != node),
                Action::Access { number, node } => {
                    (self.next, self.done) = (self.next + 1, number + 1);
                    return Ok(self.record(number, node));
                }
            }
            self.next += 1;
        }
        Ok(None)
    }

    /// The record of an access that was done, once more: if its node is held still, as with [`List::whole`] it is.
    pub fn again(&mut self, number: usize) -> Option<Held<'_, T>> {
        let node = *self
            .program
            .nodes
            .get(number)
            .filter(|_| number < self.done)?;
        self.record(number, node)
    }

    /// How many accesses were begun.
    pub fn done(&self) -> usize {
        self.done
    }

    /// Ends it.
    ///
    /// # Errors
    ///
    /// [`Error::Unfinished`] if not all accesses were begun.
    pub fn finish(self) -> Result<(), Error> {
        let (done, wanted) = (self.done, self.program.nodes.len());
        if done < wanted {
            return Err(Error::Unfinished { done, wanted });
        }
        Ok(())
    }

    /// The lock of a node, which is waited for.
    async fn had(&self, node: usize) -> Result<OwnedMutexGuard<T>, Error> {
        let node = &self.locks.nodes[node];
        if let Ok(guard) = Arc::clone(&node.record).try_lock_owned() {
            return Ok(guard);
        }
        node.waits.fetch_add(1, Ordering::Relaxed);
        let lock = Arc::clone(&node.record).lock_owned();
        let Some(until) = self.until else {
            return Ok(lock.await);
        };
        timeout_at(until, lock).await.map_err(|_| Error::TimedOut {
            path: node.path.clone(),
            done: self.done,
        })
    }

    fn record(&mut self, number: usize, node: usize) -> Option<Held<'_, T>> {
        let held = self.held.iter_mut().find(|(held, _)| *held == node);
        held.map(|(_, guard)| Held {
            number,
            record: &mut **guard,
        })
    }
}

impl<T> fmt::Debug for Transaction<'_, T> {
    fn fmt(&self, out: &mut fmt::Formatter<'_>) -> fmt::Result {
        out.debug_struct("Transaction")
            .field("done", &self.done)
            .field("accesses", &self.program.nodes.len())
            .finish_non_exhaustive()
    }
}

/// The record of an access, whose node this task holds.
#[derive(Debug)]
pub struct Held<'t, T> {
    number: usize,
    record: &'t mut T,
}

impl<T> Held<'_, T> {
    /// The access's place in the list, counted from 0.
    pub fn number(&self) -> usize {
        self.number
    }
}

impl<T> Deref for Held<'_, T> {
    type Target = T;

    fn deref(&self) -> &T {
        self.record
    }
}

impl<T> DerefMut for Held<'_, T> {
    fn deref_mut(&mut self) -> &mut T {
        self.record
    }
}
