//! From durations of the language to milliseconds.

use std::error;
use std::fmt;
use std::time::Duration;

/// A duration is no whole number of milliseconds, or more than 2^64 - 1 of them.
#[derive(Clone, Copy, Debug, PartialEq, Eq)]
pub struct DurationError(pub Duration);

impl fmt::Display for DurationError {
    fn fmt(&self, f: &mut fmt::Formatter<'_>) -> fmt::Result {
        write!(f, "no whole number of milliseconds: {:?}", self.0)
    }
}

impl error::Error for DurationError {}

/// The milliseconds of a duration, for ranges, steps and offsets.
///
/// ```
/// # use promql_proved::milliseconds;
/// # use std::time::Duration;
/// assert_eq!(milliseconds(Duration::from_secs(300)), Ok(300_000));
/// assert!(milliseconds(Duration::from_micros(1500)).is_err());
/// ```
///
/// # Errors
///
/// `DurationError` where there is a part of a millisecond, which no tree has, or where there are more than 2^64 - 1.
pub fn milliseconds(duration: Duration) -> Result<u64, DurationError> {
    match u64::try_from(duration.as_millis()) {
        Ok(count) if duration.subsec_nanos() % 1_000_000 == 0 => Ok(count),
        _ => Err(DurationError(duration)),
    }
}
