//! Transactions that are prepared, and how they are decided.

use crate::transaction_id::TransactionId;
use std::fmt;

/// How a prepared transaction is to end, by [`SharedStore::decide`](crate::SharedStore::decide). It is displayed as `commit` or
/// `abort`.
#[derive(Clone, Copy, Debug, PartialEq, Eq, Hash)]
// there is no third way, so it isn't `non_exhaustive`
pub enum Decision {
    /// It commits.
    Commit,
    /// It is aborted: nothing stays of it.
    Abort,
}

impl fmt::Display for Decision {
    fn fmt(&self, f: &mut fmt::Formatter<'_>) -> fmt::Result {
        f.write_str(match self {
            Decision::Commit => "commit",
            Decision::Abort => "abort",
        })
    }
}

/// A transaction that is prepared and isn't decided, by [`SharedStore::prepared`](crate::SharedStore::prepared).
#[derive(Clone, Debug, PartialEq, Eq, Hash)]
#[non_exhaustive]
pub struct Prepared {
    /// The key under which it is decided.
    pub key: String,
    /// The id that it had where it was prepared, also in later lives.
    pub id: TransactionId,
    /// The number that [`SharedTransaction::prepare`](crate::SharedTransaction::prepare) was given, at which the store doesn't look.
    pub until: u32,
    /// The objects at which it holds operations, ascending; [`SharedStore::name_of`](crate::SharedStore::name_of) gives their names.
    pub objects: Vec<u32>,
}
