use crate::{RangesError, Writes};
use std::sync::Arc;

/// How many stores a division has at most.
const MOST_STORES: usize = 1024;

/// How the keys are divided among stores. It is a plain value, whose clones share their boundary keys.
///
/// ```
/// use hlcstore::Division;
///
/// let towns = Division::by_keys(&["g", "n", "t"])?;
/// assert_eq!(towns.stores(), 4);
/// assert_eq!((towns.store_of("Lyon"), towns.store_of("g"), towns.store_of("zurich")), (0, 1, 3));
/// # Ok::<(), hlcstore::RangesError>(())
/// ```
#[derive(Clone, Debug, PartialEq, Eq)]
pub struct Division(Arc<Rule>);

#[derive(Debug, PartialEq, Eq)]
enum Rule {
    /// By ascending boundary keys: of each store but the first, the least key that it may have.
    Keys(Vec<Vec<u8>>),
    /// By the hash of a key, among this many stores.
    Hash(usize),
}

impl Division {
    /// Divides by boundary keys, whose bytes ascend: the first store has the keys below the first boundary, and each
    /// other store those from its boundary on and below the next one. There is one store more than boundaries.
    ///
    /// Refusal: `BadDivision`, if a boundary has no bytes, or is not above the one before it, or there are more than
    /// 1,023.
    pub fn by_keys<K: AsRef<[u8]>>(boundaries: &[K]) -> Result<Division, RangesError> {
        let boundaries: Vec<Vec<u8>> = boundaries.iter().map(|boundary| boundary.as_ref().to_vec()).collect();
        let do_ascend =
            boundaries.first().is_none_or(|first| !first.is_empty()) && boundaries.is_sorted_by(|a, b| a < b);
        if do_ascend && boundaries.len() < MOST_STORES {
            Ok(Division(Arc::new(Rule::Keys(boundaries))))
        } else {
            Err(RangesError::BadDivision)
        }
    }

    /// Divides among this many stores, 1 to 1,024, by the hash of a key: FNV-1a of 64 bits, modulo their number.
    ///
    /// Refusal: `BadDivision`.
    pub fn by_hash(stores: usize) -> Result<Division, RangesError> {
        if (1..=MOST_STORES).contains(&stores) {
            Ok(Division(Arc::new(Rule::Hash(stores))))
        } else {
            Err(RangesError::BadDivision)
        }
    }

    /// Returns how many stores there are.
    pub fn stores(&self) -> usize {
        match &*self.0 {
            Rule::Keys(boundaries) => boundaries.len() + 1,
            Rule::Hash(stores) => *stores,
        }
    }

    /// Returns the number of the store to which a key belongs, from 0 on.
    pub fn store_of(&self, key: impl AsRef<[u8]>) -> usize {
        let key = key.as_ref();
        match &*self.0 {
            Rule::Keys(boundaries) => boundaries.partition_point(|boundary| &boundary[..] <= key),
            // The remainder is below the number of stores.
            Rule::Hash(stores) => (hash(key) % *stores as u64) as usize,
        }
    }

    /// The number of the store to which all keys of a batch belong; of one without keys that of the first store.
    pub(crate) fn store_of_all(&self, writes: Writes<'_>) -> Result<usize, RangesError> {
        let mut owners = writes.iter().map(|(key, _)| self.store_of(key));
        let store = owners.next().unwrap_or(0);
        owners.find(|owner| *owner != store).map_or(Ok(store), |other| Err(RangesError::WrongStore(other)))
    }

    /// Whether the stores have the keys in order, each those above the keys of the one before it.
    pub(crate) fn is_by_keys(&self) -> bool {
        matches!(*self.0, Rule::Keys(_))
    }
}

/// The hash FNV-1a of 64 bits.
fn hash(key: &[u8]) -> u64 {
    const BASIS: u64 = 0xcbf2_9ce4_8422_2325;
    const PRIME: u64 = 0x100_0000_01b3;
    key.iter().fold(BASIS, |hash, byte| (hash ^ u64::from(*byte)).wrapping_mul(PRIME))
}

#[cfg(test)]
mod tests {
    /// The values that the authors of the hash publish.
    #[test]
    fn hashes_are_those_of_fnv() {
        assert_eq!(super::hash(b""), 0xcbf2_9ce4_8422_2325);
        assert_eq!(super::hash(b"a"), 0xaf63_dc4c_8601_ec8c);
        assert_eq!(super::hash(b"foobar"), 0x8594_4171_f739_67e8);
    }
}
