use crate::error::Error;
use crate::library::KeptStore;
use crate::requests::{Requests, unrefused};
use crate::tree::Tree;
use crate::unpoisoned;
use crate::writing::no_list;
use std::fmt;
use std::sync::Mutex;

/// A store inside this process. It answers lines as `grove serve --workers 1` does (docs/SESSIONS.md); its records are
/// in memory, and go with it. Of several threads that call it each waits for the one before.
///
/// ```
/// use pickbracken::{Access, Reply, Requests, Store, Tree};
///
/// # fn main() -> Result<(), pickbracken::Error> {
/// let store = Store::open(&Tree::from_paths([("/", 5), ("/a", 1)])?)?;
/// let round = store.batch([[Access::add("/a", 7)]])?;
/// assert_eq!(round.replies, [[Reply::Number(7)]]);
/// # Ok(())
/// # }
/// ```
pub struct Store(Mutex<KeptStore>);

impl Store {
    /// A store of a tree with its records.
    ///
    /// # Errors
    ///
    /// [`Error::Refused`] of what is no tree, and [`Error::NoMemory`].
    pub fn open(tree: &Tree) -> Result<Store, Error> {
        Store::open_document(tree.document(&no_list()).as_bytes())
    }

    /// A store of the tree and the records of a document's bytes.
    ///
    /// # Errors
    ///
    /// As above.
    pub fn open_document(document: &[u8]) -> Result<Store, Error> {
        Ok(Store(Mutex::new(KeptStore::open(document)?)))
    }

    /// The text of the reply to the last line that had one, be it a refusal; empty before the first line.
    pub fn last_reply(&self) -> String {
        unpoisoned(self.0.lock()).reply()
    }
}

impl Requests for Store {
    fn send(&self, line: &[u8]) -> Result<String, Error> {
        unrefused(unpoisoned(self.0.lock()).answer(line)?)
    }
}

impl fmt::Debug for Store {
    fn fmt(&self, out: &mut fmt::Formatter<'_>) -> fmt::Result {
        out.write_str("Store")
    }
}
