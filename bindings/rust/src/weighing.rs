use crate::error::Error;
use crate::library::KeptTree;
use crate::nodes::Nodes;
use crate::part::MOST_NODES;
use crate::unpoisoned;
use std::sync::atomic::{AtomicU64, Ordering};
use std::sync::{Arc, Mutex};

/// The most that a node weighs, and the most waits that are told of one.
const MOST_WEIGHT: u32 = 1_000;
const MOST_WAITS: u64 = 1_000;

/// The weights of nodes, and which time it is that they were made.
pub(crate) struct Weighing {
    epoch: AtomicU64,
    weights: Mutex<Arc<[u32]>>,
}

impl Weighing {
    pub(crate) fn new(weights: Vec<u32>) -> Weighing {
        Weighing {
            epoch: AtomicU64::new(0),
            weights: Mutex::new(weights.into()),
        }
    }

    #[inline]
    pub(crate) fn epoch(&self) -> u64 {
        self.epoch.load(Ordering::Acquire)
    }

    /// The weights of now, and their epoch.
    pub(crate) fn now(&self) -> (u64, Arc<[u32]>) {
        let weights = unpoisoned(self.weights.lock());
        (self.epoch(), Arc::clone(&weights))
    }

    /// Makes new weights of the old ones and the waits, and gives how many have changed.
    pub(crate) fn reweigh(&self, waits: impl Iterator<Item = u64>) -> usize {
        let mut weights = unpoisoned(self.weights.lock());
        let each = weights.iter().zip(waits);
        let new: Arc<[u32]> = each.map(|(&weight, it)| new_weight(weight, it)).collect();
        let both = weights.iter().zip(new.iter());
        let changed = both.filter(|(before, after)| before != after).count();
        *weights = new;
        self.epoch.fetch_add(1, Ordering::Release);
        changed
    }
}

/// The weight of each node by those that are given.
pub(crate) fn weights_of<P: AsRef<str>>(
    nodes: &Nodes,
    given: &[(P, u32)],
) -> Result<Vec<u32>, Error> {
    let mut weights = vec![1; nodes.len()];
    for (path, weight) in given {
        let (path, weight) = (path.as_ref(), *weight);
        if !(1..=MOST_WEIGHT).contains(&weight) {
            let path = path.to_owned();
            return Err(Error::Weight { path, weight });
        }
        weights[nodes.number(path)? as usize] = weight;
    }
    Ok(weights)
}

/// The new weights of nodes by their waits, and how many have changed. The library makes them, of some nodes at a time:
/// for this nobody is above another one, but for the first.
pub(crate) fn reweighed(
    weights: &[u32],
    waits: impl Iterator<Item = u32>,
) -> Result<(Vec<u32>, usize), Error> {
    let waits: Vec<u32> = waits.take(weights.len()).collect();
    let (mut new, mut changed) = (weights.to_vec(), 0);
    let each = weights.chunks(MOST_NODES).zip(waits.chunks(MOST_NODES));
    for ((weights, waits), new) in each.zip(new.chunks_mut(MOST_NODES)) {
        let tree = KeptTree::build(&vec![0; weights.len()], weights)?;
        changed += tree.expect("it is in the limits").reweigh(waits, new);
    }
    Ok((new, changed))
}

/// So many waits as are told of a node.
pub(crate) fn told(waits: u64) -> u32 {
    waits.min(MOST_WAITS) as u32
}

/// The new weight of a node (docs/PROTOCOL.md).
fn new_weight(weight: u32, waits: u64) -> u32 {
    MOST_WEIGHT.min(1 + (weight - 1) / 2 + told(waits))
}

#[cfg(test)]
mod tests {
    use super::{Weighing, new_weight, reweighed, told};

    #[test]
    fn new_weights_go_by_the_rule() {
        for (weight, waits, new) in [
            (1, 0, 1),
            (2, 0, 1),
            (3, 0, 2),
            (1_000, 0, 500),
            (998, 500, 999),
            (999, 500, 1_000),
            (1_000, 500, 1_000),
            (1, u64::MAX, 1_000),
        ] {
            assert_eq!(new_weight(weight, waits), new, "{weight}, {waits}");
        }
        assert_eq!([999, 1_000, 1_001].map(told), [999, 1_000, 1_000]);
    }

    #[test]
    fn the_rule_is_that_of_the_library() {
        let weights: Vec<u32> = (1..=1_000).chain(1..=1_000).cycle().take(9_000).collect();
        for waits in [0, 1, 2, 499, 500, 501, 1_000] {
            let all = (0..9_000).map(|node| waits + node % 3);
            let wanted = weights.iter().zip(all.clone());
            let wanted: Vec<u32> = wanted
                .map(|(&it, waits)| new_weight(it, waits.into()))
                .collect();
            let both = weights.iter().zip(&wanted);
            let changed = both.filter(|(before, after)| before != after).count();
            assert_eq!(reweighed(&weights, all), Ok((wanted, changed)));
        }
    }

    #[test]
    fn a_reweighing_begins_an_epoch() {
        let weighing = Weighing::new(vec![64, 8, 1]);
        assert_eq!(weighing.reweigh([1, 0, 0].into_iter()), 2);
        let (epoch, weights) = weighing.now();
        assert_eq!((epoch, &weights[..]), (1, &[33, 4, 1][..]));
        assert_eq!(weighing.epoch(), 1);
    }
}
