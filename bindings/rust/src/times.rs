//! When a query reads: windows, pinned queries, and up to when an answer may change.

use crate::json::{self, Value, Values, write_string};
use crate::library::{self, CallTimes};
use crate::{Error, milliseconds, text_of};
use std::ops::Range;
use std::time::{Duration, SystemTime};

/// When a query is evaluated, and how far an engine looks back (`docs/reference/when.md` of the repository, "Times").
#[derive(Clone, Copy, Debug, PartialEq, Eq)]
pub struct EvalTimes {
    /// The first time: that of `@ start()`.
    pub start: SystemTime,
    /// The time after which there is none: that of `@ end()`.
    pub end: SystemTime,
    /// From one time to the next; none counts as a millisecond.
    pub step: Duration,
    /// How far back a selector without a range takes a sample.
    pub lookback: Duration,
    /// The step of a subquery without one.
    pub default_step: Duration,
    /// Whether a sample at the very beginning of a window is left out, as in Prometheus 3. In Prometheus 2 it is read.
    pub left_open: bool,
}

impl EvalTimes {
    /// The times of a range query in Prometheus 3: it looks back five minutes, and a subquery without a step has one of a minute.
    pub fn range(start: SystemTime, end: SystemTime, step: Duration) -> EvalTimes {
        let (lookback, default_step) = (Duration::from_secs(300), Duration::from_secs(60));
        EvalTimes { start, end, step, lookback, default_step, left_open: true }
    }

    /// The one time of an instant query in Prometheus 3.
    pub fn instant(time: SystemTime) -> EvalTimes {
        EvalTimes::range(time, time, Duration::ZERO)
    }

    fn to_c(self) -> Result<CallTimes, Error> {
        let length = |length| milliseconds(length).map_err(|_| Error::PartOfMillisecond);
        Ok(CallTimes {
            start: unix_millis(self.start)?,
            end: unix_millis(self.end)?,
            step: length(self.step)?,
            lookback: length(self.lookback)?,
            default_step: length(self.default_step)?,
            left_open: self.left_open.into(),
        })
    }
}

/// What a selector reads over all times of a query.
#[derive(Clone, Debug, PartialEq, Eq)]
pub struct Window {
    /// The selector as it prints without its range.
    pub selector: String,
    /// From the first through the last sample; `None` where the selector is never evaluated.
    pub samples: Option<(SystemTime, SystemTime)>,
    /// The bytes of the query that the selector is, with its range; `None` for a `target_info` that is not in the query.
    pub range: Option<Range<usize>>,
}

/// When each selector of a query reads, over all its times, in the order of a walk. A call of `info` without a second argument also has
/// `target_info`, after its argument.
///
/// ```
/// # use promql_proved::{EvalTimes, windows};
/// # use std::time::{Duration, SystemTime};
/// let at = |seconds| SystemTime::UNIX_EPOCH + Duration::from_secs(seconds);
/// let times = EvalTimes { left_open: false, ..EvalTimes::range(at(7200), at(10_800), Duration::from_secs(60)) };
/// let found = windows("rate(a[5m] offset 1h)", times)?;
/// assert_eq!(found[0].samples, Some((at(3300), at(7200))));
/// assert_eq!(found[0].range, Some(5..20));
/// # Ok::<(), promql_proved::Error>(())
/// ```
///
/// # Errors
///
/// Those of [`canonical`](crate::canonical) but `LongOutput`; `PartOfMillisecond` where the times are no whole milliseconds;
/// `TimeOverflow` where 64 bits do not hold a window.
pub fn windows(query: &str, times: EvalTimes) -> Result<Vec<Window>, Error> {
    Ok(rows_of(&text_of(library::windows(query, &times.to_c()?))?, window))
}

/// The rows of an array that the library wrote.
fn rows_of<T>(shown: &str, row: impl Fn(Values<'_>) -> Option<T>) -> Vec<T> {
    let values = |it: Value<'_>| if let Value::Array(values) = it { row(values) } else { None };
    let read = json::read(shown);
    match read.as_ref().map(|json| json.value()) {
        Some(Value::Array(rows)) => rows.filter_map(values).collect(),
        _ => Vec::new(),
    }
}

/// A window, as the library writes it: `["a",-300000,0,0,1]`.
fn window(mut values: Values<'_>) -> Option<Window> {
    match (values.next()?, values.next()?, values.next()?, values.next()?, values.next()?) {
        (Value::String(selector), first, last, start, end) => {
            let samples = moment(first).and_then(|first| Some((first, moment(last)?)));
            let range = byte(start).and_then(|start| Some(start..byte(end)?));
            Some(Window { selector: selector.to_string(), samples, range })
        }
        _ => None,
    }
}

/// The number of a byte; `None` where it is null.
fn byte(value: Value<'_>) -> Option<usize> {
    match value {
        Value::Number(number) => number.parse().ok(),
        _ => None,
    }
}

/// How far from the time of evaluation a selector reads, whatever that time is.
#[derive(Clone, Debug, PartialEq, Eq)]
pub struct Reach {
    /// The selector as it prints without its range.
    pub selector: String,
    /// From the first through the last sample that it can read.
    pub samples: Reached,
}

/// From where to where a selector reads.
#[derive(Clone, Copy, Debug, PartialEq, Eq)]
pub enum Reached {
    /// So many milliseconds after the time of evaluation. What is negative is earlier.
    Moving(i64, i64),
    /// The same at every time: the selector, or a subquery around it, has an `@`.
    Fixed(SystemTime, SystemTime),
}

/// How far from the time of evaluation each selector of a query reads, whatever that time is, in the order of [`windows`]. Of the times, the
/// steps count for nothing, and `start` and `end` only where the query has `@ start()` or `@ end()`.
///
/// ```
/// # use promql_proved::{EvalTimes, Reached, reaches};
/// # use std::time::SystemTime;
/// let times = EvalTimes { left_open: false, ..EvalTimes::instant(SystemTime::UNIX_EPOCH) };
/// let found = reaches("rate(a[5m] offset 1h)", times)?;
/// assert_eq!(found[0].samples, Reached::Moving(-3_900_000, -3_600_000));
/// # Ok::<(), promql_proved::Error>(())
/// ```
///
/// # Errors
///
/// Those of [`windows`].
pub fn reaches(query: &str, times: EvalTimes) -> Result<Vec<Reach>, Error> {
    Ok(rows_of(&text_of(library::reaches(query, &times.to_c()?))?, reach))
}

/// A reach, as the library writes it: `["a",-300000,0,false]`.
fn reach(mut values: Values<'_>) -> Option<Reach> {
    match (values.next()?, values.next()?, values.next()?, values.next()?) {
        (Value::String(selector), first, last, Value::Bool(is_fixed)) => {
            let samples = match is_fixed {
                true => Reached::Fixed(moment(first)?, moment(last)?),
                false => Reached::Moving(whole(first)?, whole(last)?),
            };
            Some(Reach { selector: selector.to_string(), samples })
        }
        _ => None,
    }
}

/// Whether a query may read a series with these labels, of which `__name__` is the name of the metric: whether one of its selectors selects
/// the series. Of two labels with one name the last counts. Where no selector selects the series, it may come or go, and what the query
/// gives stays the same (`docs/reference/when.md` of the repository, "Series that a query may read").
///
/// ```
/// # use promql_proved::may_read;
/// assert!(may_read("sum(rate(http_requests{job=~'a.*'}[5m]))", [("__name__", "http_requests"), ("job", "api")])?);
/// # Ok::<(), promql_proved::Error>(())
/// ```
///
/// # Errors
///
/// Those of [`canonical`](crate::canonical) but `LongOutput`.
pub fn may_read<N, V>(query: &str, labels: impl IntoIterator<Item = (N, V)>) -> Result<bool, Error>
where
    N: AsRef<str>,
    V: AsRef<str>,
{
    let mut series = String::new();
    for (name, value) in labels {
        series.push(if series.is_empty() { '{' } else { ',' });
        write_string(&mut series, name.as_ref());
        series.push(':');
        write_string(&mut series, value.as_ref());
    }
    series.push_str(if series.is_empty() { "{}" } else { "}" });
    text_of(library::may_read(query, &series)).map(|shown| shown == "true")
}

/// The last time that a query reads where it is evaluated at `time`; `None` where it reads nothing. Its value at this time is final once all
/// samples up to there are known.
///
/// # Errors
///
/// Those of [`windows`].
pub fn last_read(query: &str, time: SystemTime, times: EvalTimes) -> Result<Option<SystemTime>, Error> {
    let shown = text_of(library::last_read(query, unix_millis(time)?, &times.to_c()?))?;
    Ok(json::read(&shown).and_then(|json| moment(json.value())))
}

/// The query on one line with these times for `@ start()` and `@ end()`. Over any times it reads at each of them what the query reads there
/// from `start` to `end`, so it may be asked in parts (`docs/guide/cache.md` of the repository).
///
/// # Errors
///
/// Those of [`canonical`](crate::canonical); `GridFunction` where the query calls `start`, `end`, `step` or `range`; `PartOfMillisecond`
/// where the times are no whole milliseconds.
pub fn pin(query: &str, start: SystemTime, end: SystemTime) -> Result<String, Error> {
    text_of(library::pinned(query, unix_millis(start)?, unix_millis(end)?))
}

/// Whether a query is the same at every time. It may be where this says that it is not (`docs/reference/when.md` of the repository,
/// "Constant queries").
///
/// # Errors
///
/// Those of [`canonical`](crate::canonical) but `LongOutput`.
pub fn is_constant(query: &str) -> Result<bool, Error> {
    text_of(library::is_constant(query)).map(|shown| shown == "true")
}

/// A moment in milliseconds since the epoch.
fn unix_millis(moment: SystemTime) -> Result<i64, Error> {
    let (length, sign) = match moment.duration_since(SystemTime::UNIX_EPOCH) {
        Ok(after) => (after, 1),
        Err(before) => (before.duration(), -1),
    };
    let millis = milliseconds(length).map_err(|_| Error::PartOfMillisecond)?;
    i64::try_from(i128::from(millis) * sign).map_err(|_| Error::PartOfMillisecond)
}

/// The moment of a number of milliseconds since the epoch; `None` where it is null.
fn moment(value: Value<'_>) -> Option<SystemTime> {
    let millis = whole(value)?;
    let length = Duration::from_millis(millis.unsigned_abs());
    if millis < 0 { SystemTime::UNIX_EPOCH.checked_sub(length) } else { SystemTime::UNIX_EPOCH.checked_add(length) }
}

/// A whole number; `None` where it is null.
fn whole(value: Value<'_>) -> Option<i64> {
    match value {
        Value::Number(number) => number.parse().ok(),
        _ => None,
    }
}
