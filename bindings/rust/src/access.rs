/// What an access does to the record of its node.
#[derive(Clone, Copy, Debug, PartialEq, Eq)]
#[non_exhaustive]
pub enum Op {
    /// Replies the record.
    Get,
    /// Stores a number.
    Set(i64),
    /// Adds a number, and replies the sum.
    Add(i64),
    /// Takes a number, and replies what is left, unless that would be less than zero.
    Take(i64),
}

impl Op {
    /// Does it to a record, and gives what it replies (docs/PROTOCOL.md).
    pub(crate) fn done(self, record: &mut i64) -> Reply {
        let left = match self {
            Op::Get => return Reply::Number(*record),
            Op::Set(number) => {
                *record = number;
                return Reply::Stored;
            }
            Op::Add(number) => record.checked_add(number),
            Op::Take(number) if *record < number => return Reply::Short,
            Op::Take(number) => record.checked_sub(number),
        };
        left.map_or(Reply::Range, |left| {
            *record = left;
            Reply::Number(left)
        })
    }
}

/// An access of a list.
#[derive(Clone, Debug, PartialEq, Eq)]
#[non_exhaustive]
pub struct Access {
    /// The path of its node.
    pub path: String,
    /// What it does.
    pub op: Op,
    /// How many slots it takes, 1 to 1,000.
    pub length: u64,
}

impl Access {
    /// Gets the record of a node, in one slot.
    pub fn get(path: impl Into<String>) -> Access {
        Access::of(path, Op::Get)
    }

    /// Sets it.
    pub fn set(path: impl Into<String>, number: i64) -> Access {
        Access::of(path, Op::Set(number))
    }

    /// Adds to it.
    pub fn add(path: impl Into<String>, number: i64) -> Access {
        Access::of(path, Op::Add(number))
    }

    /// Takes from it.
    pub fn take(path: impl Into<String>, number: i64) -> Access {
        Access::of(path, Op::Take(number))
    }

    /// The same access, which takes so many slots.
    #[must_use]
    pub fn lasting(self, length: u64) -> Access {
        Access { length, ..self }
    }

    fn of(path: impl Into<String>, op: Op) -> Access {
        Access {
            path: path.into(),
            op,
            length: 1,
        }
    }
}

/// What an access replies.
#[derive(Clone, Copy, Debug, PartialEq, Eq)]
#[non_exhaustive]
pub enum Reply {
    /// The record, or the sum or what is left that is stored.
    Number(i64),
    /// The number is stored.
    Stored,
    /// The sum or difference leaves 64 bits; the record is as it was.
    Range,
    /// There is less than was to be taken; the record is as it was.
    Short,
}

#[cfg(test)]
mod tests {
    use super::{Op, Reply};

    #[test]
    fn what_is_done_goes_by_the_rules() {
        use Reply::{Number, Range, Short, Stored};

        for (before, op, after, reply) in [
            (7, Op::Get, 7, Number(7)),
            (7, Op::Set(-3), -3, Stored),
            (7, Op::Add(-8), -1, Number(-1)),
            (1, Op::Add(i64::MAX), 1, Range),
            (-1, Op::Add(i64::MIN), -1, Range),
            (7, Op::Take(7), 0, Number(0)),
            (7, Op::Take(8), 7, Short),
            (-3, Op::Take(-5), 2, Number(2)),
            (-5, Op::Take(-3), -5, Short),
            (0, Op::Take(i64::MIN), 0, Range),
            (-1, Op::Take(i64::MIN), i64::MAX, Number(i64::MAX)),
        ] {
            let mut record = before;
            assert_eq!(op.done(&mut record), reply, "{before} {op:?}");
            assert_eq!(record, after, "{before} {op:?}");
        }
    }
}
