//! Buffers, for which a lack of memory is an error.

use crate::{Error, Result};
use hlcstore_sys as sys;

/// Makes room for this many bytes more.
pub(crate) fn reserve(bytes: &mut Vec<u8>, more: usize) -> Result<()> {
    bytes.try_reserve_exact(more).map_err(|_| Error::NO_MEMORY)
}

/// Returns a copy of some bytes.
pub(crate) fn copied(bytes: &[u8]) -> Result<Vec<u8>> {
    let mut copy = Vec::new();
    reserve(&mut copy, bytes.len())?;
    copy.extend_from_slice(bytes);
    Ok(copy)
}

/// Appends what a call writes. The call gets a place, how many bytes it has room for, and where to write how many it
/// returns. It is made again with more room where that was too little.
///
/// # Safety
///
/// If the call returns `HLC_OK` and a length for which there was room, it has written that many bytes to the place.
pub(crate) unsafe fn append(out: &mut Vec<u8>, mut call: impl FnMut(*mut u8, usize, &mut usize) -> u32) -> Result<()> {
    loop {
        let room = out.spare_capacity_mut();
        let room_len = room.len();
        let mut len = 0;
        let code = call(room.as_mut_ptr().cast(), room_len, &mut len);
        if code != sys::HLC_OK {
            return Err(Error::new(code, 0));
        }
        if len <= room_len {
            // SAFETY: the call has written these bytes.
            unsafe { out.set_len(out.len() + len) };
            return Ok(());
        }
        reserve(out, len)?;
    }
}
