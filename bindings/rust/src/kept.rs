use crate::access::Access;
use crate::bounded::Bounded;
use crate::error::Error;
use crate::library::KeptTree;
use crate::nodes::{Known, Nodes};
use crate::plan::Plan;
use crate::target::Target;
use crate::unpoisoned;
use std::fmt;
use std::hash::{BuildHasherDefault, Hash, Hasher};
use std::sync::Mutex;

/// So many plans are kept of a tree; then all are forgotten.
const MOST_PLANS: usize = 4_096;

/// What a tree keeps from call to call: how the library has it, and the plans that were made over it. A clone is
/// another tree, which keeps nothing yet.
pub(crate) struct Kept {
    whole: Mutex<Whole>,
    /// By a hash of the paths and the lengths of their lists.
    plans: Mutex<Bounded<u64, Plan, BuildHasherDefault<Known>>>,
}

/// A hash that is taken of eight bytes at a time. Whoever wants two lists of one hash finds them, so what is
/// kept by it is compared.
#[derive(Default)]
struct Words(u64);

impl Words {
    /// Some bits that look drawn.
    const FACTOR: u64 = 0x9e37_79b9_7f4a_7c15;

    #[inline]
    fn add(&mut self, word: u64) {
        let product = u128::from(self.0 ^ word ^ Words::FACTOR) * u128::from(Words::FACTOR);
        self.0 = product as u64 ^ (product >> 64) as u64;
    }
}

impl Hasher for Words {
    #[inline]
    fn finish(&self) -> u64 {
        self.0
    }

    #[inline]
    fn write(&mut self, bytes: &[u8]) {
        let words = bytes.chunks_exact(8);
        let rest = words.remainder().iter();
        let last = rest.fold(0, |word, &byte| word << 8 | u64::from(byte));
        words.for_each(|word| self.add(u64::from_le_bytes(word.try_into().expect("it has eight"))));
        self.add(last);
    }

    #[inline]
    fn write_u8(&mut self, byte: u8) {
        self.add(byte.into());
    }

    #[inline]
    fn write_u64(&mut self, word: u64) {
        self.add(word);
    }
}

/// How the library has a tree.
pub(crate) enum Whole {
    /// Nobody has asked for it yet.
    Unasked,
    /// As a whole.
    Kept(KeptTree),
    /// Not at all: the tree is too large or too deep, and each call takes a part.
    InParts,
}

impl Kept {
    /// What a list is kept by, of whose accesses only paths and lengths matter.
    #[inline]
    pub(crate) fn key(list: &[Access]) -> u64 {
        let mut hasher = Words::default();
        for access in list {
            access.path.hash(&mut hasher);
            access.length.hash(&mut hasher);
        }
        hasher.finish()
    }

    /// The plan that was made for a list with this key.
    #[inline]
    pub(crate) fn plan(&self, key: u64, list: &[Access], nodes: &Nodes) -> Option<Plan> {
        let plans = unpoisoned(self.plans.lock());
        let plan = plans.get(&key)?;
        let kept = plan.list()?;
        let is_it = |(access, target): (&Access, &Target)| {
            access.length == target.length.into() && access.path == nodes.path(target.node)
        };
        let is_same = list.len() == kept.len() && list.iter().zip(kept).all(is_it);
        is_same.then(|| plan.clone())
    }

    /// Keeps a plan that was made, in the place of another one if two lists have the same key.
    pub(crate) fn keep(&self, key: u64, plan: &Plan) {
        let (plan, steps) = (plan.clone(), plan.numbered_steps().len());
        unpoisoned(self.plans.lock()).keep(key, plan, steps);
    }

    /// What a call says of the whole tree, if the library has it so. Of several threads each waits for the one before.
    pub(crate) fn ask<A>(
        &self,
        build: impl FnOnce() -> Result<Whole, Error>,
        call: impl FnOnce(&mut KeptTree) -> A,
    ) -> Result<Option<A>, Error> {
        let mut whole = unpoisoned(self.whole.lock());
        if let Whole::Unasked = *whole {
            *whole = build()?;
        }
        Ok(match &mut *whole {
            Whole::Kept(tree) => Some(call(tree)),
            Whole::Unasked | Whole::InParts => None,
        })
    }
}

impl Default for Kept {
    fn default() -> Kept {
        Kept {
            whole: Mutex::new(Whole::Unasked),
            plans: Mutex::new(Bounded::new(MOST_PLANS)),
        }
    }
}

impl Clone for Kept {
    fn clone(&self) -> Kept {
        Kept::default()
    }
}

impl fmt::Debug for Kept {
    fn fmt(&self, out: &mut fmt::Formatter<'_>) -> fmt::Result {
        out.write_str("Kept")
    }
}
