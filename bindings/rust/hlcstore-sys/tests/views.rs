//! A value where it lies in the store, which only this crate returns: it is what the copying read returns.

use hlcstore_sys::{
    HLC_NO_SNAPSHOT, HLC_NO_VALUE, HLC_OK, hlc_snapshot_close, hlc_snapshot_open_at_floor, hlc_snapshot_read,
    hlc_snapshot_view, hlc_store, hlc_store_accept_delete, hlc_store_accept_write, hlc_store_close, hlc_store_open,
};
use std::ptr;

/// Compares the two reads of a key, and returns the value in place, or none with the answer.
fn view(store: &hlc_store, id: u64, key: &[u8]) -> Result<&'static [u8], u32> {
    let (mut copied, mut read_len) = (vec![0; 65_535], 0);
    let (mut at, mut len) = (ptr::dangling(), 1);
    let mut copy = *store;
    let (read, viewed) = unsafe {
        (
            hlc_snapshot_read(&mut copy, id, key.as_ptr(), key.len(), copied.as_mut_ptr(), copied.len(), &mut read_len),
            hlc_snapshot_view(&mut copy, id, key.as_ptr(), key.len(), &mut at, &mut len),
        )
    };
    assert_eq!((viewed, len, at.is_null()), (read, read_len, read != HLC_OK));
    if at.is_null() {
        return Err(viewed);
    }
    let value = unsafe { std::slice::from_raw_parts(at, len) };
    assert_eq!(value, &copied[..len]);
    Ok(value)
}

#[test]
fn values_are_read_in_place() {
    let mut store = hlc_store { at: ptr::null_mut(), live: false };
    let (mut id, mut word) = (0, 0);
    let lengths = [0, 1, 30, 31, 65_535];
    unsafe {
        assert_eq!(hlc_store_open(&mut store, 1), HLC_OK);
        for (number, len) in lengths.into_iter().enumerate() {
            let (key, value) = ([number as u8], vec![number as u8; len]);
            let stamp = (number as u64 + 1) << 16;
            let code = hlc_store_accept_write(
                &mut store,
                0,
                number as u64,
                stamp,
                key.as_ptr(),
                1,
                value.as_ptr(),
                len,
                &mut word,
            );
            assert_eq!(code, HLC_OK);
        }
        assert_eq!(hlc_store_accept_delete(&mut store, 0, 5, 9 << 16, [1].as_ptr(), 1, &mut word), HLC_OK);
        assert_eq!(hlc_snapshot_open_at_floor(&mut store, &mut id, &mut word), HLC_OK);
    }
    let first = view(&store, id, &[4]).unwrap();
    for (number, len) in lengths.into_iter().enumerate().filter(|(number, _)| *number != 1) {
        assert_eq!(view(&store, id, &[number as u8]).unwrap(), vec![number as u8; len]);
    }
    assert_eq!(view(&store, id, &[4]).unwrap().as_ptr(), first.as_ptr());
    for key in [&[1][..], &[7], &[]] {
        assert_eq!(view(&store, id, key), Err(HLC_NO_VALUE));
    }
    assert_eq!(unsafe { hlc_snapshot_close(&mut store, id, &mut word) }, HLC_OK);
    assert_eq!(view(&store, id, &[0]), Err(HLC_NO_SNAPSHOT));
    unsafe { hlc_store_close(&mut store) };
}
