//! The library that was found is that of the header.

use hlcstore_sys::{HLC_VERSION, HLC_VERSION_NUMBER, hlc_version};

#[test]
fn library_has_the_version_of_the_header() {
    assert_eq!(hlc_version(), HLC_VERSION_NUMBER);
}

#[test]
fn package_has_the_version_of_the_header() {
    assert_eq!(env!("CARGO_PKG_VERSION"), HLC_VERSION);
}
