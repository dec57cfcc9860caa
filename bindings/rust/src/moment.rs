//! What lines name, as numbers.

use std::fmt;
use std::time::{Duration, SystemTime, UNIX_EPOCH};

use instants_sys::fault;

const NANOSECONDS: u32 = 1_000_000_000;

/// The moment of a line. A `SystemTime` is a moment too, and each moment of a line is a `SystemTime`.
///
/// ```
/// use std::time::{Duration, SystemTime, UNIX_EPOCH};
///
/// let earlier = instants::Moment { seconds: -1, nanoseconds: 500_000_000 };
/// assert!(earlier < instants::Moment { seconds: 0, nanoseconds: 0 });
/// assert_eq!(SystemTime::try_from(earlier)?, UNIX_EPOCH - Duration::from_millis(500));
/// assert_eq!(instants::Moment::from(UNIX_EPOCH - Duration::from_millis(500)), earlier);
/// # Ok::<(), instants::NoSystemTime>(())
/// ```
#[derive(Clone, Copy, Debug, PartialEq, Eq, PartialOrd, Ord, Hash)]
pub struct Moment {
    /// The seconds since 1970 began in UTC, rounded down.
    pub seconds: i64,
    /// The nanoseconds after them, below 1,000,000,000.
    pub nanoseconds: u32,
}

impl From<SystemTime> for Moment {
    fn from(time: SystemTime) -> Moment {
        // (the seconds of the system's times are an i64)
        match time.duration_since(UNIX_EPOCH) {
            Ok(after) => Moment { seconds: after.as_secs() as i64, nanoseconds: after.subsec_nanos() },
            Err(fault) => before_1970(fault.duration()),
        }
    }
}

/// The moment so long before 1970, its seconds rounded down.
fn before_1970(before: Duration) -> Moment {
    let seconds = (before.as_secs() as i64).wrapping_neg();
    match before.subsec_nanos() {
        0 => Moment { seconds, nanoseconds: 0 },
        part => Moment { seconds: seconds - 1, nanoseconds: NANOSECONDS - part },
    }
}

/// A moment is no `SystemTime`: it has 1,000,000,000 nanoseconds or more, or is before or after all times of the system. No moment
/// of a line is like that.
#[derive(Clone, Copy, Debug, PartialEq, Eq)]
pub struct NoSystemTime;

impl fmt::Display for NoSystemTime {
    fn fmt(&self, f: &mut fmt::Formatter<'_>) -> fmt::Result {
        f.write_str("the moment is no time of the system")
    }
}

impl std::error::Error for NoSystemTime {}

impl TryFrom<Moment> for SystemTime {
    type Error = NoSystemTime;

    fn try_from(moment: Moment) -> Result<SystemTime, NoSystemTime> {
        if moment.nanoseconds >= NANOSECONDS {
            return Err(NoSystemTime);
        }
        let whole = Duration::from_secs(moment.seconds.unsigned_abs());
        let second = match moment.seconds {
            0.. => UNIX_EPOCH.checked_add(whole),
            _ => UNIX_EPOCH.checked_sub(whole),
        };
        second.and_then(|it| it.checked_add(Duration::from_nanos(moment.nanoseconds.into()))).ok_or(NoSystemTime)
    }
}

/// Why a line has no moment, by the number that `instants.h` gives it; its text is that after `! ` in an answer.
///
/// ```
/// let timeline = instants::Timeline::new(&["+00:00", "-", "100", "rfc3339"])?;
/// let fault = timeline.moments(b"2021-02-30T00:00:00Z")[0].unwrap_err();
/// assert_eq!((fault.number(), fault.to_string()), (503, "range day".to_string()));
/// # Ok::<(), instants::Fault>(())
/// ```
#[derive(Clone, Copy, Debug, PartialEq, Eq, Hash)]
pub struct LineFault {
    number: u32,
}

impl LineFault {
    /// Its number, which never changes.
    pub fn number(self) -> u32 {
        self.number
    }

    /// The name of the component that it is of, where it is of one that has a number.
    ///
    /// ```
    /// let timeline = instants::Timeline::new(&["+00:00", "-", "100", "rfc3339"])?;
    /// assert_eq!(timeline.moments(b"yesterday")[0].unwrap_err().component(), Some("year"));
    /// # Ok::<(), instants::Fault>(())
    /// ```
    pub fn component(self) -> Option<&'static str> {
        let place = usize::try_from(self.number % 100).ok()?.checked_sub(1)?;
        fault::NAMES.get(place).copied()
    }
}

impl fmt::Display for LineFault {
    fn fmt(&self, f: &mut fmt::Formatter<'_>) -> fmt::Result {
        let kind = match self.number - self.number % 100 {
            fault::LITERAL => "literal",
            fault::COMPONENT => "component",
            fault::TRAILING => "trailing",
            fault::INSUFFICIENT => "insufficient",
            fault::RANGE => "range",
            fault::YEAR => "year",
            fault::LONG => "long",
            _ => return write!(f, "fault {}", self.number),
        };
        match self.component() {
            Some(name) => write!(f, "{kind} {name}"),
            None => f.write_str(kind),
        }
    }
}

impl std::error::Error for LineFault {}

/// An entry of the library as a value.
pub(crate) fn of_entry(entry: instants_sys::Moment) -> Result<Moment, LineFault> {
    match entry.fault {
        0 => Ok(Moment { seconds: entry.seconds, nanoseconds: entry.nanoseconds }),
        number => Err(LineFault { number }),
    }
}
