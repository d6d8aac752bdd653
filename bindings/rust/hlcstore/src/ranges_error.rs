use crate::{Error, Stamp};
use std::fmt;

/// Why a call of [`Ranges`](crate::Ranges), or of a [`Division`](crate::Division), was refused. Nothing was changed
/// then, unless the call describes an exception.
#[derive(Clone, Copy, Debug, PartialEq, Eq, Hash)]
#[non_exhaustive]
pub enum RangesError {
    /// A division has boundary keys that do not ascend, or not 1 to 1,024 stores; or there are not as many checkpoints,
    /// or links, as stores.
    BadDivision,
    /// No store has this number.
    NoStore(usize),
    /// The key belongs to another store, which has this number.
    WrongStore(usize),
    /// The stamp is above the cut, which is here.
    AboveCut(Stamp),
    /// The checkpoints are not of one cut: not all were made by one call.
    NotOneCut,
    /// The stores do not have the same nodes, since a node joined some of them by another call.
    NodesDiffer,
    /// The store with this number refused.
    Store {
        /// The number of the store, from 0 on.
        store: usize,
        /// Why it refused.
        error: Error,
    },
    /// The machine refused; or there is no memory to list.
    Refused(Error),
}

impl RangesError {
    /// Returns the refusal of the store, or of the machine, if it is one.
    pub fn refusal(self) -> Option<Error> {
        match self {
            RangesError::Store { error, .. } | RangesError::Refused(error) => Some(error),
            _ => None,
        }
    }

    /// Returns how a refusal of a store is told.
    pub(crate) fn of_store(store: usize) -> impl Fn(Error) -> RangesError {
        move |error| RangesError::Store { store, error }
    }
}

impl fmt::Display for RangesError {
    fn fmt(&self, f: &mut fmt::Formatter<'_>) -> fmt::Result {
        match self {
            RangesError::BadDivision => f.write_str("the division has no such stores"),
            RangesError::NoStore(store) => write!(f, "there is no store {store}"),
            RangesError::WrongStore(store) => write!(f, "the key belongs to store {store}"),
            RangesError::AboveCut(cut) => write!(f, "the stamp is above the cut ({cut})"),
            RangesError::NotOneCut => f.write_str("the checkpoints are not of one cut"),
            RangesError::NodesDiffer => f.write_str("the stores do not have the same nodes"),
            RangesError::Store { store, error } => write!(f, "store {store} refused: {error}"),
            RangesError::Refused(error) => error.fmt(f),
        }
    }
}

impl std::error::Error for RangesError {
    fn source(&self) -> Option<&(dyn std::error::Error + 'static)> {
        match self {
            RangesError::Store { error, .. } => Some(error),
            RangesError::Refused(error) => error.source(),
            _ => None,
        }
    }
}

/// Calls of a [`Machine`](crate::Machine) return this error.
impl From<Error> for RangesError {
    fn from(error: Error) -> RangesError {
        RangesError::Refused(error)
    }
}
