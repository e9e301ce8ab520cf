use crate::unpoisoned;
use std::hint;
use std::sync::atomic::{AtomicU8, AtomicU64, Ordering};
use std::sync::{Condvar, Mutex};
use std::time::Instant;

const FREE: u8 = 0;
const HELD: u8 = 1;
/// It is held, and somebody may wait for it.
const AWAITED: u8 = 2;

/// So often it is looked at before its thread goes to sleep.
const LOOKS: usize = 100;

/// A lock that has nothing in it, and may be waited for until a moment, as a `Mutex` of the standard library can't.
///
/// It is taken and let go by one atomic operation each while nobody waits. Who has to wait marks it as awaited, under
/// the gate, and sleeps. Who lets it go and finds the mark goes through the gate before he wakes a sleeper: so nobody
/// makes the mark and then sleeps on. A sleeper whose time is over looks at it once more, and leaves the mark: so a
/// wake that was for him isn't lost.
#[derive(Default)]
pub(crate) struct Latch {
    state: AtomicU8,
    gate: Mutex<()>,
    freed: Condvar,
    waits: AtomicU64,
}

impl Latch {
    /// Whether it is had, which is waited for until a moment if there is one.
    #[inline]
    #[must_use]
    pub(crate) fn lock(&self, until: Option<Instant>) -> bool {
        self.is_taken() || self.wait(until)
    }

    /// Lets it go. The caller has it.
    #[inline]
    pub(crate) fn unlock(&self) {
        if self.state.swap(FREE, Ordering::Release) == AWAITED {
            self.wake();
        }
    }

    /// How often it was waited for since this was last set to 0.
    pub(crate) fn waits(&self) -> u64 {
        self.waits.load(Ordering::Relaxed)
    }

    /// The same, which then begins at 0.
    pub(crate) fn take_waits(&self) -> u64 {
        self.waits.swap(0, Ordering::Relaxed)
    }

    /// Whether it was free, and is the caller's now.
    #[inline]
    fn is_taken(&self) -> bool {
        let changed = self
            .state
            .compare_exchange(FREE, HELD, Ordering::Acquire, Ordering::Relaxed);
        changed.is_ok()
    }

    #[cold]
    fn wait(&self, until: Option<Instant>) -> bool {
        self.waits.fetch_add(1, Ordering::Relaxed);
        if self.is_had_soon() {
            return true;
        }
        let mut gate = unpoisoned(self.gate.lock());
        while self.state.swap(AWAITED, Ordering::Acquire) != FREE {
            let Some(until) = until else {
                gate = unpoisoned(self.freed.wait(gate));
                continue;
            };
            let left = until.saturating_duration_since(Instant::now());
            if left.is_zero() {
                return false;
            }
            gate = unpoisoned(self.freed.wait_timeout(gate, left)).0;
        }
        true
    }

    /// Whether it is had without a sleep. Behind others who sleep nobody looks long.
    fn is_had_soon(&self) -> bool {
        for _ in 0..LOOKS {
            match self.state.load(Ordering::Relaxed) {
                FREE if self.is_taken() => return true,
                AWAITED => return false,
                _ => hint::spin_loop(),
            }
        }
        false
    }

    #[cold]
    fn wake(&self) {
        drop(unpoisoned(self.gate.lock()));
        self.freed.notify_one();
    }
}

#[cfg(test)]
mod tests {
    use super::Latch;
    use std::sync::atomic::{AtomicU64, Ordering};
    use std::sync::{Arc, Mutex, mpsc};
    use std::thread;
    use std::time::{Duration, Instant};

    const THREADS: u64 = 8;
    const TURNS: u64 = 2_000;
    /// Nothing here takes as long.
    const LIMIT: Duration = Duration::from_secs(60);

    /// A latch, what only its holder touches, and how often another one touched it then.
    #[derive(Default)]
    struct Watched {
        latch: Latch,
        count: Mutex<u64>,
        clashes: AtomicU64,
    }

    impl Watched {
        fn count_one(&self) {
            match self.count.try_lock() {
                Ok(mut count) => *count += 1,
                Err(_) => drop(self.clashes.fetch_add(1, Ordering::Relaxed)),
            }
            self.latch.unlock();
        }

        /// Every other thread gives up soon, and then waits as long as it takes.
        fn use_often(&self, thread: u64) {
            for turn in 0..TURNS {
                let limit = Duration::from_nanos(100 * (turn % 20));
                let until = (thread % 2 == 0).then(|| Instant::now() + limit);
                let is_had = self.latch.lock(until) || self.latch.lock(None);
                assert!(is_had, "a wait without a limit was given up");
                self.count_one();
            }
        }
    }

    #[test]
    fn one_has_it_at_a_time() {
        let watched = Arc::new(Watched::default());
        let (ended, ends) = mpsc::channel();
        for thread in 0..THREADS {
            let (watched, ended) = (Arc::clone(&watched), ended.clone());
            thread::spawn(move || {
                watched.use_often(thread);
                ended.send(()).expect("it is waited for");
            });
        }
        for _ in 0..THREADS {
            ends.recv_timeout(LIMIT).expect("a thread was forgotten");
        }
        assert_eq!(watched.clashes.load(Ordering::Relaxed), 0);
        assert_eq!(*watched.count.lock().unwrap(), THREADS * TURNS);
        assert!(watched.latch.lock(Some(Instant::now())));
    }

    #[test]
    fn what_is_held_is_late_and_counted() {
        let latch = Latch::default();
        assert!(latch.lock(None));
        for waits in 1..=3 {
            assert!(!latch.lock(Some(Instant::now())));
            assert_eq!(latch.waits(), waits);
        }
        assert_eq!((latch.take_waits(), latch.waits()), (3, 0));
        latch.unlock();
        assert!(latch.lock(Some(Instant::now())));
    }
}
