use crate::Error;
use hlcstore_sys as sys;
use std::fmt;
use std::str::FromStr;
use std::time::{Duration, SystemTime, UNIX_EPOCH};

/// The timestamp of an event: a physical part of 48 bits, and a counter of 16. Stamps are ordered by both.
///
/// The physical part has the unit of the readings that the nodes get. Of times it is a millisecond since 1970; any
/// other unit that all nodes share is as good. As text a stamp is its two parts:
///
/// ```
/// use hlcstore::Stamp;
///
/// let stamp = Stamp::new(12, 1);
/// assert_eq!((stamp.physical(), stamp.counter()), (12, 1));
/// assert_eq!(stamp.to_string(), "12.1");
/// assert_eq!("12.1".parse(), Ok(stamp));
/// assert!(stamp < Stamp::new(13, 0));
/// assert_eq!(Stamp::checked_new(1 << 48, 0), None);
/// ```
#[derive(Clone, Copy, Debug, Default, PartialEq, Eq, PartialOrd, Ord, Hash)]
pub struct Stamp(u64);

impl Stamp {
    /// The least stamp, at which the nodes start that are there when a store is opened.
    pub const ZERO: Stamp = Stamp(0);

    /// The greatest stamp.
    pub const MAX: Stamp = Stamp(u64::MAX);

    /// Returns the stamp with these parts.
    ///
    /// # Panics
    ///
    /// If the physical part is 2^48 or more. Of a constant, it does not compile:
    ///
    /// ```compile_fail,E0080
    /// const NONE: hlcstore::Stamp = hlcstore::Stamp::new(1 << 48, 0);
    /// ```
    pub const fn new(physical: u64, counter: u16) -> Stamp {
        match Stamp::checked_new(physical, counter) {
            Some(stamp) => stamp,
            None => panic!("the physical part of a stamp is 2^48 or more"),
        }
    }

    /// Returns the stamp with these parts, or none if the physical part is 2^48 or more.
    pub const fn checked_new(physical: u64, counter: u16) -> Option<Stamp> {
        if physical >> 48 == 0 { Some(Stamp(physical << 16 | counter as u64)) } else { None }
    }

    /// Returns the stamp that this word represents, physical part * 65536 + counter.
    pub const fn from_bits(bits: u64) -> Stamp {
        Stamp(bits)
    }

    /// Returns the stamp as one word, physical part * 65536 + counter.
    pub const fn to_bits(self) -> u64 {
        self.0
    }

    /// Returns the physical part.
    pub const fn physical(self) -> u64 {
        self.0 >> 16
    }

    /// Returns the counter.
    pub const fn counter(self) -> u16 {
        self.0 as u16
    }

    /// Returns the physical part as the time of this many milliseconds since 1970. Its opposite is `Stamp::try_from`.
    ///
    /// ```
    /// use hlcstore::Stamp;
    /// use std::time::{Duration, UNIX_EPOCH};
    ///
    /// let time = UNIX_EPOCH + Duration::from_millis(1_500);
    /// assert_eq!(Stamp::try_from(time), Ok(Stamp::new(1_500, 0)));
    /// assert_eq!(Stamp::new(1_500, 7).time(), time);
    /// ```
    pub fn time(self) -> SystemTime {
        UNIX_EPOCH + Duration::from_millis(self.physical())
    }
}

/// The least stamp of a time: its milliseconds since 1970, and the counter 0. A finer part of the time is cut off.
impl TryFrom<SystemTime> for Stamp {
    type Error = StampTimeError;

    fn try_from(time: SystemTime) -> Result<Stamp, StampTimeError> {
        let since = time.duration_since(UNIX_EPOCH).map_err(|_| StampTimeError::TooEarly)?;
        let physical = u64::try_from(since.as_millis()).ok();
        physical.and_then(|physical| Stamp::checked_new(physical, 0)).ok_or(StampTimeError::TooLate)
    }
}

/// Why a time has no stamp. As an [`Error`] it is of the kind `ReadingTooLarge`.
#[derive(Clone, Copy, Debug, PartialEq, Eq, Hash)]
pub enum StampTimeError {
    /// The time is before 1970.
    TooEarly,
    /// The time is 2^48 milliseconds or more after the start of 1970.
    TooLate,
}

impl fmt::Display for StampTimeError {
    fn fmt(&self, f: &mut fmt::Formatter<'_>) -> fmt::Result {
        f.write_str(match self {
            StampTimeError::TooEarly => "the time is before 1970",
            StampTimeError::TooLate => "the time is 2^48 milliseconds or more after the start of 1970",
        })
    }
}

impl std::error::Error for StampTimeError {}

impl From<StampTimeError> for Error {
    fn from(_: StampTimeError) -> Error {
        Error::new(sys::HLC_READING_TOO_LARGE, 0)
    }
}

/// Why a text is no stamp: it is not two decimal numbers without leading zeros, of 48 and of 16 bits, with a full stop
/// between them.
#[derive(Clone, Copy, Debug, PartialEq, Eq, Hash)]
pub struct ParseStampError(());

impl fmt::Display for ParseStampError {
    fn fmt(&self, f: &mut fmt::Formatter<'_>) -> fmt::Result {
        f.write_str("a stamp is two decimal numbers with a full stop between them, as 5.0")
    }
}

impl std::error::Error for ParseStampError {}

/// The number of a text that has its only spelling in decimal digits.
fn number<T: FromStr + ToString>(text: &str) -> Option<T> {
    text.parse().ok().filter(|number: &T| number.to_string() == text)
}

impl FromStr for Stamp {
    type Err = ParseStampError;

    fn from_str(text: &str) -> Result<Stamp, ParseStampError> {
        let parts = text.split_once('.').and_then(|(physical, counter)| Some((number(physical)?, number(counter)?)));
        parts.and_then(|(physical, counter)| Stamp::checked_new(physical, counter)).ok_or(ParseStampError(()))
    }
}

impl fmt::Display for Stamp {
    fn fmt(&self, f: &mut fmt::Formatter<'_>) -> fmt::Result {
        write!(f, "{}.{}", self.physical(), self.counter())
    }
}
