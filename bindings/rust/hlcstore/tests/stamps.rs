//! The parts of stamps, and those that no stamp has.

use hlcstore::{Error, ErrorKind, Stamp};
use std::time::{Duration, UNIX_EPOCH};

const GREATEST: Stamp = Stamp::new((1 << 48) - 1, u16::MAX);

#[test]
fn greatest_parts_make_the_greatest_stamp() {
    assert_eq!(GREATEST, Stamp::MAX);
    assert_eq!((GREATEST.physical(), GREATEST.counter()), ((1 << 48) - 1, u16::MAX));
    assert_eq!(Stamp::checked_new((1 << 48) - 1, u16::MAX), Some(Stamp::MAX));
    assert_eq!(Stamp::new(1, 2).to_bits(), 65_538);
}

#[test]
#[should_panic(expected = "the physical part of a stamp is 2^48 or more")]
fn physical_part_of_49_bits_panics() {
    let _ = Stamp::new(1 << 48, 0);
}

#[test]
#[should_panic(expected = "the physical part of a stamp is 2^48 or more")]
fn physical_part_of_64_bits_panics() {
    let _ = Stamp::new(u64::MAX, 0);
}

#[test]
fn no_stamp_has_a_longer_physical_part() {
    const NONE: Option<Stamp> = Stamp::checked_new(1 << 48, 0);
    assert_eq!(NONE, None);
    assert_eq!(Stamp::checked_new(u64::MAX, 1), None);
}

#[test]
fn text_of_a_stamp_is_read_again() {
    for (text, stamp) in [("0.0", Stamp::ZERO), ("5.0", Stamp::new(5, 0)), ("281474976710655.65535", Stamp::MAX)] {
        assert_eq!((text.parse(), stamp.to_string()), (Ok(stamp), text.to_string()));
    }
}

#[test]
fn other_texts_are_no_stamps() {
    let texts = [
        "",
        ".",
        "5",
        "5.",
        ".0",
        "5.0.0",
        "5,0",
        " 5.0",
        "5.0 ",
        "+5.0",
        "5.+0",
        "-5.0",
        "05.0",
        "5.00",
        "0x5.0",
        "5.65536",
        "281474976710656.0",
        "18446744073709551616.0",
        "５.0",
    ];
    for text in texts {
        let error = text.parse::<Stamp>().unwrap_err();
        assert_eq!(error.to_string(), "a stamp is two decimal numbers with a full stop between them, as 5.0", "{text}");
    }
}

#[test]
fn times_have_stamps() {
    let at = |nanoseconds| UNIX_EPOCH + Duration::from_nanos(nanoseconds);
    assert_eq!(Stamp::try_from(UNIX_EPOCH), Ok(Stamp::ZERO));
    assert_eq!(Stamp::try_from(at(7_999_999)), Ok(Stamp::new(7, 0)));
    assert_eq!(Stamp::new(7, 9).time(), at(7_000_000));
    let end = UNIX_EPOCH + Duration::from_millis(1 << 48);
    assert_eq!(Stamp::try_from(end - Duration::from_nanos(1)), Ok(Stamp::new((1 << 48) - 1, 0)));
    assert_eq!(Stamp::MAX.time(), end - Duration::from_millis(1));
    let before = "the time is before 1970";
    for (time, text) in [
        (end, "the time is 2^48 milliseconds or more after the start of 1970"),
        (UNIX_EPOCH - Duration::from_nanos(1), before),
        (UNIX_EPOCH - Duration::from_secs(1), before),
    ] {
        let error = Stamp::try_from(time).unwrap_err();
        assert_eq!((error.to_string().as_str(), Error::from(error).kind()), (text, ErrorKind::ReadingTooLarge));
    }
}
