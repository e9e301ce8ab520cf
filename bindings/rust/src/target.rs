use crate::access::Access;
use crate::error::Error;
use crate::fault::Fault;
use crate::list::Wanted;
use crate::nodes::Nodes;
use std::ops::Deref;

/// As many accesses a list may have, and as many slots an access may take (docs/PROTOCOL.md).
pub(crate) const MOST_ACCESSES: usize = 64;
const MOST_LENGTH: u64 = 1_000;

/// An access of a list: its node and its length.
#[derive(Clone, Copy, Debug, Default, PartialEq, Eq, Hash)]
pub(crate) struct Target {
    pub(crate) node: u32,
    pub(crate) length: u32,
}

/// The accesses of a list, in its order. They need no memory.
pub(crate) struct Targets {
    all: [Target; MOST_ACCESSES],
    count: usize,
}

impl Targets {
    fn new() -> Targets {
        Targets {
            all: [Target::default(); MOST_ACCESSES],
            count: 0,
        }
    }

    /// Those of accesses of a tree; or the first fault, as the program has it.
    #[inline]
    pub(crate) fn of_accesses(nodes: &Nodes, list: &[Access]) -> Result<Targets, Error> {
        if list.len() > MOST_ACCESSES {
            return Err(refused("limit list".to_owned()));
        }
        let mut targets = Targets::new();
        for (number, access) in list.iter().enumerate() {
            let found = nodes.find(&access.path);
            let node = found.ok_or_else(|| refused(format!("no-path list {number}")))?;
            targets.push(node, access.length)?;
        }
        Ok(targets)
    }

    /// Those of paths that are wanted; or the first reason why they are no list.
    pub(crate) fn of_wanted<'p>(
        nodes: &Nodes,
        wanted: impl IntoIterator<Item = Wanted<'p>>,
    ) -> Result<Targets, Error> {
        let mut targets = Targets::new();
        for it in wanted {
            let node = nodes.number(it.path)?;
            targets.push(node, it.length)?;
        }
        Ok(targets)
    }

    fn push(&mut self, node: u32, length: u64) -> Result<(), Error> {
        if self.count == MOST_ACCESSES {
            return Err(refused("limit list".to_owned()));
        }
        if !(1..=MOST_LENGTH).contains(&length) {
            return Err(refused(format!("bad-length list {}", self.count)));
        }
        let length = length as u32;
        self.all[self.count] = Target { node, length };
        self.count += 1;
        Ok(())
    }
}

impl Deref for Targets {
    type Target = [Target];

    #[inline]
    fn deref(&self) -> &[Target] {
        &self.all[..self.count]
    }
}

fn refused(text: String) -> Error {
    Error::Refused(Fault::of(text))
}
