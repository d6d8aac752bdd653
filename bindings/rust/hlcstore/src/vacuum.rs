use crate::error::answer;
use crate::{Result, Stamp};
use hlcstore_sys as sys;

/// What a vacuum did.
#[derive(Clone, Copy, Debug, PartialEq, Eq, Hash)]
pub struct Vacuumed {
    /// The stamp up to which rows were dropped: the floor, or that of [`Store::vacuum_to`](crate::Store::vacuum_to). It
    /// is the horizon now.
    pub stamp: Stamp,
    /// How many rows at or below the stamp were kept.
    pub kept: u64,
    /// What these cost: for each the length of its key and of its value, and 10.
    pub bytes: u64,
    /// How many rows at or below the stamp were dropped.
    pub dropped: u64,
}

/// The rows at or below a stamp, and their certificate.
#[derive(Clone, Debug, PartialEq, Eq, Hash)]
pub struct Certified {
    /// How many rows there are.
    pub kept: u64,
    /// What these cost: for each the length of its key and of its value, and 10.
    pub bytes: u64,
    /// The text of the certificate, which [`check_certificate`] and `hlcstore check` read. `docs/formats.md` describes
    /// it.
    pub certificate: String,
}

/// What a part of a vacuum did, and where the next one begins.
#[derive(Clone, Debug, PartialEq, Eq, Hash)]
pub struct VacuumPart {
    /// What it did. The numbers are those of rows of the keys of this part.
    pub vacuumed: Vacuumed,
    /// The last key of this part, after which the next one goes on, or none, only where no key is left.
    pub next: Option<Vec<u8>>,
}

/// How many rows a certificate has, and what they cost.
#[derive(Clone, Copy, Debug, PartialEq, Eq, Hash)]
pub struct Checked {
    /// How many rows.
    pub rows: u64,
    /// What they cost in bytes: for each the length of its key and of its value, and 10.
    pub bytes: u64,
}

/// Checks the text of a certificate, whoever made it: no row set that gives the same answers at its points has fewer
/// rows, or costs fewer bytes.
///
/// Refusals: `BadLine`, `NoMemory`, `NotShown`.
///
/// ```
/// use hlcstore::{Node, Stamp, Store, check_certificate};
///
/// let store = Store::open(1)?;
/// let mut node = Node::new(0, Stamp::ZERO);
/// store.accept(node.write(5, b"city", b"Lyon")?)?;
/// let vacuumed = store.vacuum()?;
/// let certified = store.certificate(vacuumed.stamp)?;
/// assert_eq!(check_certificate(&certified.certificate)?.rows, vacuumed.kept);
/// # Ok::<(), hlcstore::Error>(())
/// ```
pub fn check_certificate(text: impl AsRef<[u8]>) -> Result<Checked> {
    let text = text.as_ref();
    let (mut rows, mut bytes, mut word) = (0, 0, 0);
    // SAFETY: the text has this length, and the other pointers are live and not used otherwise during the call.
    let code = unsafe { sys::hlc_certificate_check(text.as_ptr(), text.len(), &mut rows, &mut bytes, &mut word) };
    answer(code, word)?;
    Ok(Checked { rows, bytes })
}
