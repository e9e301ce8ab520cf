use std::error;
use std::fmt;

/// Why a transaction doesn't begin, or doesn't go on.
#[derive(Clone, Debug, PartialEq, Eq)]
#[non_exhaustive]
pub enum Error {
    /// There is no such tree, list or plan.
    Plan(pickbracken::Error),
    /// The list was made by other locks.
    Foreign,
    /// A node wasn't had in time. A transaction of which no access was done, or that is undone first, may be begun
    /// again.
    #[non_exhaustive]
    TimedOut {
        /// The node's path.
        path: String,
        /// So many accesses were done before, and stay done.
        done: usize,
    },
    /// A transaction was ended before all its accesses were begun.
    #[non_exhaustive]
    Unfinished {
        /// So many were.
        done: usize,
        /// So many its list has.
        wanted: usize,
    },
}

impl From<pickbracken::Error> for Error {
    fn from(why: pickbracken::Error) -> Error {
        Error::Plan(why)
    }
}

impl fmt::Display for Error {
    fn fmt(&self, out: &mut fmt::Formatter<'_>) -> fmt::Result {
        match self {
            Error::Plan(why) => why.fmt(out),
            Error::Foreign => out.write_str("the list was made by other locks"),
            Error::TimedOut { path, done } => {
                write!(out, "{path} wasn't had in time, after {done} accesses")
            }
            Error::Unfinished { done, wanted } => {
                write!(out, "{done} of {wanted} accesses were begun")
            }
        }
    }
}

impl error::Error for Error {}
