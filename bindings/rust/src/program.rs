use crate::numbers::NumberedStep;
use crate::target::Target;

/// What is done at a step of a plan over locks.
#[derive(Clone, Copy, Debug, PartialEq, Eq)]
pub(crate) enum Action {
    /// Locks a node, which the action of number `until` unlocks.
    Lock { node: Locked, until: u32 },
    /// Unlocks it.
    Unlock { node: Locked },
    /// Does the access of a number, at the node of a number.
    Access { access: u32, node: u32 },
}

/// A node that a plan locks, and whether an access is done at it.
#[derive(Clone, Copy, Debug, PartialEq, Eq)]
pub(crate) struct Locked {
    pub(crate) number: u32,
    pub(crate) is_accessed: bool,
}

/// The actions of a list by the weights of an epoch.
#[derive(Debug)]
pub(crate) struct Program {
    pub(crate) epoch: u64,
    pub(crate) actions: Box<[Action]>,
    pub(crate) accesses: usize,
}

impl Program {
    /// The program of a list that a plan has over the part of its tree that is cut.
    pub(crate) fn new(epoch: u64, list: &[Target], cut: &[u32], plan: &[NumberedStep]) -> Program {
        let mut until = vec![plan.len() as u32; cut.len()];
        for (at, step) in plan.iter().enumerate() {
            if let NumberedStep::Unlock(place) = step {
                until[*place as usize] = at as u32;
            }
        }
        let mut is_accessed = vec![false; cut.len()];
        for target in list {
            is_accessed[cut.partition_point(|&number| number < target.node)] = true;
        }
        let locked = |place: u32| Locked {
            number: cut[place as usize],
            is_accessed: is_accessed[place as usize],
        };
        let action = |step: &NumberedStep| match *step {
            NumberedStep::Lock(place) => Action::Lock {
                node: locked(place),
                until: until[place as usize],
            },
            NumberedStep::Unlock(place) => Action::Unlock {
                node: locked(place),
            },
            NumberedStep::Access(access) => Action::Access {
                access,
                node: list[access as usize].node,
            },
        };
        Program {
            epoch,
            actions: plan.iter().map(action).collect(),
            accesses: list.len(),
        }
    }

    /// The nodes that are held after so many actions, the last that was locked first. If accessed nodes are held to
    /// the end, they are among them.
    pub(crate) fn held_after(&self, count: usize, is_whole: bool) -> impl Iterator<Item = u32> {
        let done = self.actions[..count].iter().rev();
        done.filter_map(move |action| match *action {
            Action::Lock { node, until } => {
                let is_held = until as usize >= count || is_whole && node.is_accessed;
                is_held.then_some(node.number)
            }
            _ => None,
        })
    }

    /// The node at which the access of a number is done.
    pub(crate) fn node_of(&self, number: usize) -> Option<u32> {
        self.actions.iter().find_map(|action| match *action {
            Action::Access { access, node } if access as usize == number => Some(node),
            _ => None,
        })
    }
}

#[cfg(test)]
mod tests {
    use super::{Action, Locked, Program};
    use crate::numbers::NumberedStep::{Access, Lock, Unlock};
    use crate::target::Target;

    /// Two accesses below a node that is let go first.
    fn program() -> Program {
        let list = [3, 8].map(|node| Target { node, length: 1 });
        let plan = [
            Lock(0),
            Lock(1),
            Lock(2),
            Unlock(0),
            Access(0),
            Unlock(1),
            Access(1),
            Unlock(2),
        ];
        Program::new(7, &list, &[1, 3, 8], &plan)
    }

    #[test]
    fn nodes_have_their_numbers() {
        let program = program();
        let top = Locked {
            number: 1,
            is_accessed: false,
        };
        let first = Locked {
            number: 3,
            is_accessed: true,
        };
        let wanted = [
            (
                0,
                Action::Lock {
                    node: top,
                    until: 3,
                },
            ),
            (
                1,
                Action::Lock {
                    node: first,
                    until: 5,
                },
            ),
            (3, Action::Unlock { node: top }),
            (4, Action::Access { access: 0, node: 3 }),
        ];
        for (at, action) in wanted {
            assert_eq!(program.actions[at], action);
        }
        assert_eq!((program.epoch, program.accesses), (7, 2));
        assert_eq!((program.node_of(1), program.node_of(2)), (Some(8), None));
    }

    #[test]
    fn what_is_held_is_known_at_each_action() {
        let held: [&[u32]; 9] = [
            &[],
            &[1],
            &[3, 1],
            &[8, 3, 1],
            &[8, 3],
            &[8, 3],
            &[8],
            &[8],
            &[],
        ];
        for (count, held) in held.into_iter().enumerate() {
            let program = program();
            let found: Vec<u32> = program.held_after(count, false).collect();
            assert_eq!(found, held, "after {count}");
            let kept = program.held_after(count, true);
            let kept: Vec<u32> = kept.filter(|it| *it != 1).collect();
            let accessed = &[8, 3][2_usize.saturating_sub(count.saturating_sub(1))..];
            assert_eq!(kept, accessed, "to the end, after {count}");
        }
    }
}
