//! Transactions of the tasks of tokio, each of which takes and lets go its locks as the settled plan of its list says.
//!
//! ```
//! use pickbracken_tokio::{Error, Locks};
//!
//! # async fn moved() -> Result<(), Error> {
//! let locks = Locks::new([("/", 20), ("/north", 5), ("/north/a", 1), ("/north/b", 1)], |_path| 10)?;
//! let list = locks.list([("/north/a", 1), ("/north/b", 3)])?;
//! let mut transaction = locks.transaction(&list)?;
//! while let Some(mut amount) = transaction.access().await? {
//!     *amount += if amount.number() == 0 { -1 } else { 1 };   // this task holds the node of this access
//! }
//! # Ok(())
//! # }
//! ```
//!
//! It is `Locks` of the crate `pickbracken` over locks of tokio, which let other tasks run while one waits. It is a
//! crate of its own, since cargo looks for what a crate may need even if nobody asks for it.

pub use error::Error;
pub use list::List;
pub use locks::Locks;
pub use transaction::{Held, Transaction};

mod error;
mod list;
mod locks;
mod transaction;
