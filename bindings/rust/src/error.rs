use crate::fault::Fault;
use std::error;
use std::fmt;

/// Why a call has no answer.
#[derive(Clone, Debug, PartialEq, Eq)]
#[non_exhaustive]
pub enum Error {
    /// What was handed in is refused.
    Refused(Fault),
    /// An allocation failed.
    NoMemory,
    /// The library that is linked isn't of this crate's version.
    #[non_exhaustive]
    OtherVersion {
        /// The library's: major, minor and patch.
        library: (u8, u8, u8),
    },
    /// This is no path from the root down, as `/` or `/a/b`.
    BadPath(String),
    /// No node has this path.
    NoNode(String),
    /// A node's weight isn't 1 to 1,000.
    #[non_exhaustive]
    Weight {
        /// The node's path.
        path: String,
        /// Its weight.
        weight: u32,
    },
    /// This thread is in a transaction of these locks. Of two in one each could wait for the other.
    Nested,
    /// The list was made by other locks.
    Foreign,
    /// A node wasn't had in time. A transaction of which no access was done, or that is undone first, may be begun
    /// again.
    #[non_exhaustive]
    TimedOut {
        /// The node's path.
        path: String,
        /// So many accesses were done before, and stay done.
        done: usize,
    },
    /// A panic came in an access of the node's record, which may be half changed (see
    /// [`Locks::mend`](crate::Locks::mend)).
    #[non_exhaustive]
    Poisoned {
        /// The node's path.
        path: String,
        /// So many accesses were done before, and stay done.
        done: usize,
    },
    /// A transaction was ended before all its accesses were begun.
    #[non_exhaustive]
    Unfinished {
        /// So many were.
        done: usize,
        /// So many its list has.
        wanted: usize,
    },
    /// There is no server, or it closed the connection, took too long, or speaks something else, such as HTTP.
    #[non_exhaustive]
    Lost {
        /// What has happened.
        why: String,
        /// The last so many lines have no reply. Each of them may have had its effect, or not.
        unanswered: usize,
    },
    /// A line that is to be sent has a line feed in it, and would be two. It wasn't sent.
    LineFeed,
    /// What came is no reply to what was asked. This is how it begins.
    NoReply(String),
}

impl fmt::Display for Error {
    fn fmt(&self, out: &mut fmt::Formatter<'_>) -> fmt::Result {
        match self {
            Error::Refused(fault) => write!(out, "refused {fault}"),
            Error::NoMemory => out.write_str("memory"),
            Error::OtherVersion { library } => {
                let (major, minor, patch) = library;
                let own = env!("CARGO_PKG_VERSION");
                write!(
                    out,
                    "the library has version {major}.{minor}.{patch}, and the crate {own}"
                )
            }
            Error::BadPath(path) => write!(out, "{path:?} is no path from the root down"),
            Error::NoNode(path) => write!(out, "no node has the path {path:?}"),
            Error::Weight { path, weight } => {
                write!(out, "{path:?} weighs {weight}, which isn't 1 to 1,000")
            }
            Error::Nested => out.write_str("this thread is in a transaction of these locks"),
            Error::Foreign => out.write_str("the list was made by other locks"),
            Error::TimedOut { path, done } => {
                write!(out, "{path} wasn't had in time, after {done} accesses")
            }
            Error::Poisoned { path, done } => {
                write!(out, "{path} is poisoned, after {done} accesses")
            }
            Error::Unfinished { done, wanted } => {
                write!(out, "{done} of {wanted} accesses were begun")
            }
            Error::Lost { why, .. } => out.write_str(why),
            Error::LineFeed => out.write_str("a line has no line feed in it"),
            Error::NoReply(reply) => write!(out, "this is no reply: {reply}"),
        }
    }
}

impl error::Error for Error {}

/// Why [`Locks::try_run`](crate::Locks::try_run) has stopped. What was done before stays done.
#[derive(Clone, Debug, PartialEq, Eq)]
pub enum Stopped<E> {
    /// The transaction didn't begin, or a record wasn't had.
    Locks(Error),
    /// A call gave an error.
    Call {
        /// The number of its access: so many were done before.
        number: usize,
        /// The call's error.
        error: E,
    },
}

impl<E> From<Error> for Stopped<E> {
    fn from(why: Error) -> Stopped<E> {
        Stopped::Locks(why)
    }
}

impl<E> fmt::Display for Stopped<E> {
    fn fmt(&self, out: &mut fmt::Formatter<'_>) -> fmt::Result {
        match self {
            Stopped::Locks(why) => why.fmt(out),
            Stopped::Call { number, .. } => write!(out, "the call for access {number} has failed"),
        }
    }
}

impl<E: error::Error + 'static> error::Error for Stopped<E> {
    fn source(&self) -> Option<&(dyn error::Error + 'static)> {
        match self {
            Stopped::Locks(why) => why.source(),
            Stopped::Call { error, .. } => Some(error),
        }
    }
}
