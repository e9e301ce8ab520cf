use std::borrow::Borrow;
use std::collections::HashMap;
use std::hash::{BuildHasher, Hash, RandomState};

/// No more steps are kept of plans of a kind.
pub(crate) const MOST_STEPS: usize = 1_048_576;

/// What was made for some keys. So many are kept, with so many steps; then all are forgotten.
pub(crate) struct Bounded<K, V, S = RandomState> {
    of: HashMap<K, V, S>,
    steps: usize,
    most: usize,
}

impl<K: Hash + Eq, V, S: BuildHasher + Default> Bounded<K, V, S> {
    pub(crate) fn new(most: usize) -> Bounded<K, V, S> {
        Bounded {
            of: HashMap::default(),
            steps: 0,
            most,
        }
    }

    #[inline]
    pub(crate) fn get<Q: Hash + Eq + ?Sized>(&self, key: &Q) -> Option<&V>
    where
        K: Borrow<Q>,
    {
        self.of.get(key)
    }

    /// Keeps something with so many steps.
    pub(crate) fn keep(&mut self, key: K, value: V, steps: usize) {
        if self.of.len() >= self.most || self.steps + steps > MOST_STEPS {
            self.forget();
        }
        self.steps += steps;
        self.of.insert(key, value);
    }

    /// Counts steps that were added to what is kept.
    pub(crate) fn count(&mut self, steps: usize) {
        self.steps += steps;
        if self.steps > MOST_STEPS {
            self.forget();
        }
    }

    pub(crate) fn forget(&mut self) {
        self.of.clear();
        self.steps = 0;
    }
}

#[cfg(test)]
mod tests {
    use super::{Bounded, MOST_STEPS};

    const MOST: usize = 10;

    #[test]
    fn so_many_are_kept() {
        let mut kept: Bounded<_, _> = Bounded::new(MOST);
        for key in 0..MOST {
            kept.keep(key, key, 0);
            assert_eq!((kept.get(&0), kept.get(&key)), (Some(&0), Some(&key)));
        }
        kept.keep(MOST, MOST, 0);
        assert_eq!((kept.get(&0), kept.get(&MOST)), (None, Some(&MOST)));
        assert_eq!(kept.of.len(), 1);
    }

    #[test]
    fn so_many_steps_are_kept() {
        let mut kept: Bounded<_, _> = Bounded::new(MOST);
        for key in 0..3 {
            kept.keep(key, (), MOST_STEPS);
            assert!(kept.get(&key).is_some());
            assert_eq!(kept.of.len(), 1);
        }
        kept.count(1);
        assert_eq!(kept.of.len(), 0);
        kept.keep(0, (), MOST_STEPS - 1);
        kept.count(1);
        assert_eq!(kept.of.len(), 1);
    }
}
