use crate::buffer::copied;
use crate::listing::Strings;
use crate::{Error, Result, Stamp};

/// A stored row of a key, which [`Store::versions`](crate::Store::versions) returns.
#[derive(Clone, Debug, PartialEq, Eq, Hash)]
pub struct Version {
    /// The stamp of the write, or of the deletion.
    pub stamp: Stamp,
    /// The node that issued it.
    pub node: u16,
    /// The value, or none in a deletion.
    pub value: Option<Vec<u8>>,
}

impl Version {
    /// Returns this many rows from their bytes, as the C library writes them, for programs that make its calls
    /// themselves: of each its stamp in eight bytes and its node in two, the low one first; then a byte 0 in a
    /// deletion, or 1, the length of the value and the value.
    ///
    /// Refusal: `NoMemory`.
    pub fn from_bytes(bytes: &[u8], many: usize) -> Result<Vec<Version>> {
        let mut versions = Vec::new();
        versions.try_reserve_exact(many).map_err(|_| Error::NO_MEMORY)?;
        let mut strings = Strings { rest: bytes };
        while let Some((stamp, node, value)) = take_row(&mut strings) {
            versions.push(Version { stamp, node, value: value.map(copied).transpose()? });
        }
        Ok(versions)
    }
}

fn take_row<'a>(strings: &mut Strings<'a>) -> Option<(Stamp, u16, Option<&'a [u8]>)> {
    let (stamp, rest) = strings.rest.split_first_chunk()?;
    let (node, rest) = rest.split_first_chunk()?;
    strings.rest = rest;
    Some((Stamp::from_bits(u64::from_le_bytes(*stamp)), u16::from_le_bytes(*node), strings.answer()?))
}
