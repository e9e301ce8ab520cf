//! Where each lock of a transaction is taken and released, so that others wait as little as can be.
//!
//! ```
//! use pickbracken::Locks;
//!
//! # fn main() -> Result<(), pickbracken::Error> {
//! let locks = Locks::new([("/", 20), ("/north", 5), ("/north/a", 1), ("/north/b", 1)], |_path| 10)?;
//! let list = locks.list([("/north/a", 1), ("/north/b", 3)])?;
//! locks.run(&list, |number, record| *record += if number == 0 { -1 } else { 1 })?;
//! # Ok(())
//! # }
//! ```
//!
//! A tree has a weight for each node, which is what it costs others to find the node locked. [`Locks`] has a lock and a
//! record for each node, and takes and releases the locks as the settled plan of the accesses says: it obeys the tree
//! protocol, and no legal plan costs less. [`Tree::plan`] gives such a plan, with the flow that proves its cost.
//! [`Tree::check`] sees whether it does, whoever made plan and flow. Planner and checker are those of
//! grove, which are proved; this crate hands numbers to its library, and reads the answers.
//!
//! [`document`] has the calls over the bytes of a document. A [`Store`] runs lists by such plans in this process; a
//! [`Client`] asks a server the same [`Requests`].
//!
//! A thread that makes a call has to have 1 MiB of stack left. That of [`std::thread::spawn`] has, unless it was given
//! less by `stack_size` or `RUST_MIN_STACK`.

pub use access::{Access, Op, Reply};
pub use client::Client;
pub use drawing::Form;
pub use error::{Error, Stopped};
pub use fault::{Fault, FaultKind};
pub use list::{List, Wanted};
pub use locks::Locks;
pub use plan::{FlowRow, Judgement, Plan, Step};
pub use requests::{Requests, Round, Weights};
pub use store::Store;
pub use transaction::{Held, Transaction};
pub use tree::Tree;

use std::sync::PoisonError;

mod access;
mod bounded;
mod claim;
mod client;
pub mod document;
mod drawing;
mod error;
mod fault;
mod flow;
mod json;
mod kept;
mod latch;
mod library;
mod list;
mod locks;
mod nodes;
mod numbers;
mod part;
mod paths;
mod plan;
mod program;
mod requests;
mod shape;
mod store;
mod target;
mod transaction;
mod tree;
mod weighing;
mod writing;

/// What a lock of ours has, also after a panic: none leaves it half changed.
fn unpoisoned<G>(locked: Result<G, PoisonError<G>>) -> G {
    locked.unwrap_or_else(PoisonError::into_inner)
}
