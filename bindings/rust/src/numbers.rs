//! What crosses to the library in place of paths: the numbers of nodes and accesses.

use crate::fault::Fault;
use crate::target::{MOST_ACCESSES, Target};

/// A step of a plan by the number of its node, or of its access.
#[derive(Clone, Copy, Debug, PartialEq, Eq, Hash)]
pub(crate) enum NumberedStep {
    Lock(u32),
    Unlock(u32),
    Access(u32),
}

impl NumberedStep {
    /// The same step with another number for its node.
    pub(crate) fn numbered(self, number_of: impl FnOnce(u32) -> u32) -> NumberedStep {
        match self {
            NumberedStep::Lock(node) => NumberedStep::Lock(number_of(node)),
            NumberedStep::Unlock(node) => NumberedStep::Unlock(number_of(node)),
            NumberedStep::Access(_) => self,
        }
    }

    /// The node that it locks or unlocks.
    pub(crate) fn node(self) -> Option<u32> {
        match self {
            NumberedStep::Lock(node) | NumberedStep::Unlock(node) => Some(node),
            NumberedStep::Access(_) => None,
        }
    }
}

/// A row of a flow by the number of its node, as include/grove.h has it.
#[repr(C)]
#[derive(Clone, Copy, Debug, PartialEq, Eq)]
pub(crate) struct NumberedRow {
    pub(crate) node: u32,
    pub(crate) above: u64,
    pub(crate) held: u64,
    pub(crate) first: u64,
    pub(crate) last: u64,
    pub(crate) own: u64,
}

/// A node of a part of a tree, as include/grove.h has it: its number, the place of its parent in the part, its weight.
#[repr(C)]
#[derive(Clone, Copy, Debug, PartialEq, Eq, Hash)]
pub(crate) struct PartNode {
    pub(crate) number: u32,
    pub(crate) parent: u32,
    pub(crate) weight: u32,
}

/// The nodes and the lengths of a list, each in an array of its own. They need no memory.
pub(crate) struct Arrays {
    nodes: [u32; MOST_ACCESSES],
    lengths: [u32; MOST_ACCESSES],
    count: usize,
}

impl Arrays {
    pub(crate) fn of(list: &[Target]) -> Arrays {
        let mut arrays = Arrays {
            nodes: [0; MOST_ACCESSES],
            lengths: [0; MOST_ACCESSES],
            count: list.len(),
        };
        for (place, target) in list.iter().enumerate() {
            arrays.nodes[place] = target.node;
            arrays.lengths[place] = target.length;
        }
        arrays
    }

    /// The same with other numbers for the nodes.
    pub(crate) fn numbered(&self, number_of: impl Fn(u32) -> u32) -> Arrays {
        let mut arrays = Arrays { ..*self };
        for node in &mut arrays.nodes[..self.count] {
            *node = number_of(*node);
        }
        arrays
    }

    pub(crate) fn accesses(&self) -> Accesses<'_> {
        Accesses {
            nodes: &self.nodes[..self.count],
            lengths: &self.lengths[..self.count],
        }
    }
}

/// These arrays, for a call.
#[derive(Clone, Copy)]
pub(crate) struct Accesses<'a> {
    pub(crate) nodes: &'a [u32],
    pub(crate) lengths: &'a [u32],
}

/// A plan, what it costs, and the flow that proves that, if it was asked for.
#[derive(Debug)]
pub(crate) struct Planned {
    pub(crate) cost: u64,
    pub(crate) steps: Vec<NumberedStep>,
    pub(crate) rows: Vec<NumberedRow>,
}

/// Why steps or rows are refused, as the library numbers the reasons, and where. Of a wrong value the plan's cost is
/// known.
#[derive(Clone, Copy, Debug, PartialEq, Eq)]
pub(crate) struct NumberedFault {
    pub(crate) reason: Reason,
    pub(crate) place: u32,
    pub(crate) cost: u64,
}

/// Declares the reasons by their numbers in include/grove.h.
macro_rules! reasons {
    ($($reason:ident = $number:literal,)+) => {
        #[derive(Clone, Copy, Debug, PartialEq, Eq)]
        pub(crate) enum Reason {
            $($reason = $number,)+
        }

        impl Reason {
            pub(crate) fn of_number(number: u32) -> Option<Reason> {
                match number {
                    $($number => Some(Reason::$reason),)+
                    _ => None,
                }
            }
        }
    };
}

reasons! {
    TooLong = 1,
    NoNode = 2,
    BadLength = 3,
    Strange = 4,
    Relock = 5,
    ParentNotHeld = 6,
    NotHeld = 7,
    WrongAccess = 8,
    AccessNotHeld = 9,
    AccessMissing = 10,
    StillHeld = 11,
    Rows = 12,
    Sign = 13,
    TooBig = 14,
    LockBalance = 15,
    ReleaseBalance = 16,
    Value = 17,
}

impl NumberedFault {
    /// The fault as the program prints it. (The bound that a flow gives in place of the cost isn't known here.)
    pub(crate) fn told<'p>(self, path: impl FnOnce(u32) -> &'p str) -> Fault {
        let NumberedFault {
            reason,
            place,
            cost,
        } = self;
        Fault::of(match reason {
            Reason::TooLong => "limit list".to_owned(),
            Reason::NoNode => format!("no-path list {place}"),
            Reason::BadLength => format!("bad-length list {place}"),
            Reason::Strange => format!("step {place} strange"),
            Reason::Relock => format!("step {place} relock"),
            Reason::ParentNotHeld => format!("step {place} parent-not-held"),
            Reason::NotHeld => format!("step {place} not-held"),
            Reason::WrongAccess => format!("step {place} wrong-access"),
            Reason::AccessNotHeld => format!("step {place} access-not-held"),
            Reason::AccessMissing => format!("access {place} missing"),
            Reason::StillHeld => format!("node {} still-held", path(place)),
            Reason::Rows => format!("rows {place}"),
            Reason::Sign => format!("sign {place}"),
            Reason::TooBig => format!("too-big {place}"),
            Reason::LockBalance => format!("lock-balance {place}"),
            Reason::ReleaseBalance => format!("release-balance {place}"),
            Reason::Value => format!("value {cost}"),
        })
    }
}

#[cfg(test)]
mod tests {
    use super::{NumberedFault, Reason};
    use crate::fault::FaultKind;

    #[test]
    fn each_reason_is_told() {
        assert!(Reason::of_number(0).is_none() && Reason::of_number(18).is_none());
        for number in 1..=17 {
            let reason = Reason::of_number(number).unwrap();
            assert_eq!(reason as u32, number);
            let (place, cost) = (7, 3);
            let fault = NumberedFault {
                reason,
                place,
                cost,
            }
            .told(|_| "/a");
            assert_ne!(fault.kind(), FaultKind::Unknown, "{fault}");
        }
    }
}
