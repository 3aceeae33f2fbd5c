//! When a query reads.

use promql_proved::{Error, EvalTimes, Reach, Reached, Window, is_constant, last_read, may_read, pin, reaches, windows};
use std::collections::HashMap;
use std::ops::Range;
use std::time::{Duration, SystemTime, UNIX_EPOCH};

fn at(seconds: u64) -> SystemTime {
    UNIX_EPOCH + Duration::from_secs(seconds)
}

/// Three times: 1,000, 1,200 and 1,400 seconds.
fn closed() -> EvalTimes {
    EvalTimes { left_open: false, ..EvalTimes::range(at(1000), at(1500), Duration::from_secs(200)) }
}

fn window(selector: &str, samples: Option<(SystemTime, SystemTime)>, range: Option<Range<usize>>) -> Window {
    Window { selector: selector.to_string(), samples, range }
}

#[test]
fn each_selector_has_a_window() {
    let found = windows("info(rate(a{b='é'}[5m] @ start() offset -1m)) + max_over_time(b[1m:1h])", closed()).unwrap();
    let wanted = [
        window("a{b=\"é\"} @ start() offset -1m", Some((at(760), at(1060))), Some(10..44)),
        window("target_info", Some((at(700), at(1400))), None),
        window("b", None, Some(63..64)),
    ];
    assert_eq!(found, wanted);
    let (lookback, default_step) = (Duration::from_secs(60), Duration::from_secs(7));
    let found = windows("a + max_over_time(b[20s:])", EvalTimes { left_open: true, lookback, default_step, ..closed() }).unwrap();
    let millisecond = Duration::from_millis(1);
    let wanted = [
        window("a", Some((at(940) + millisecond, at(1400))), Some(0..1)),
        window("b", Some((at(927) + millisecond, at(1400))), Some(18..19)),
    ];
    assert_eq!(found, wanted);
    assert!(windows("1", closed()).unwrap().is_empty());
    let before = windows("a offset 1h", EvalTimes { left_open: false, ..EvalTimes::instant(at(0)) }).unwrap();
    assert_eq!(before[0].samples, Some((UNIX_EPOCH - Duration::from_secs(3900), UNIX_EPOCH - Duration::from_secs(3600))));
}

#[test]
fn what_has_no_window_is_an_error() {
    let overflow = "a time of `a @ -9223372036854775.808` is below -2^63 or above 2^63 - 1 milliseconds";
    match windows("b + a @ -9223372036854775.808", closed()) {
        Err(error @ Error::TimeOverflow(_)) => assert_eq!(error.to_string(), overflow),
        other => panic!("{other:?}"),
    }
    assert!(matches!(windows("1 +", closed()), Err(Error::Rejected(found)) if found.range == (3..3)));
    let part = Duration::from_micros(1);
    for times in [
        EvalTimes { start: at(1) + part, ..closed() },
        EvalTimes { end: at(0) - part, ..closed() },
        EvalTimes { end: at(1 << 60), ..closed() },
        EvalTimes { step: part, ..closed() },
        EvalTimes { lookback: part, ..closed() },
        EvalTimes { default_step: Duration::MAX, ..closed() },
    ] {
        assert_eq!(windows("a", times), Err(Error::PartOfMillisecond));
        assert_eq!(last_read("a", at(1), times), Err(Error::PartOfMillisecond));
    }
}

#[test]
fn an_answer_is_final_after_its_last_read() {
    for (query, last) in [("a", Some(at(1200))), ("a offset -5m + b offset 5m", Some(at(1500))), ("a @ end()", Some(at(1500))), ("1", None)]
    {
        assert_eq!(last_read(query, at(1200), closed()), Ok(last), "{query}");
    }
    assert_eq!(last_read("a", at(1) + Duration::from_nanos(1), closed()), Err(Error::PartOfMillisecond));
}

#[test]
fn times_are_pinned() {
    let start = UNIX_EPOCH - Duration::from_millis(250);
    assert_eq!(pin("sum(a@end()) by(b) - c @ start()", start, at(3600)).unwrap(), "sum by (b) (a @ 3600.000) - c @ -0.250");
    assert_eq!(pin("a > end()", at(0), at(1)), Err(Error::GridFunction));
    assert_eq!(pin("a", at(0), at(1) + Duration::from_nanos(1)), Err(Error::PartOfMillisecond));
    assert_eq!(is_constant("a @ end() + 1"), Ok(true));
    assert_eq!(is_constant("a + 1"), Ok(false));
    assert!(matches!(is_constant("1 +"), Err(Error::Rejected(_))));
}

#[test]
fn each_selector_has_a_reach() {
    let reach = |selector: &str, samples| Reach { selector: selector.to_string(), samples };
    let found = reaches("rate(a{b='é'}[1m] offset -5m) + info(b @ end() offset 1m)", closed()).unwrap();
    let wanted = [
        reach("a{b=\"é\"} offset -5m", Reached::Moving(240_000, 300_000)),
        reach("b @ end() offset 1m", Reached::Fixed(at(1140), at(1440))),
        reach("target_info", Reached::Moving(-300_000, 0)),
    ];
    assert_eq!(found, wanted);
    let found = reaches("max_over_time((a @ 5)[5m:1h] @ 7)", EvalTimes { left_open: true, ..closed() }).unwrap();
    let first = UNIX_EPOCH - Duration::from_millis(294_999);
    assert_eq!(found, [reach("a @ 5.000", Reached::Fixed(first, at(5)))]);
    assert!(reaches("1", closed()).unwrap().is_empty());
    assert!(matches!(reaches("a + b @ -9223372036854775.808", closed()), Err(Error::TimeOverflow(_))));
    assert!(matches!(reaches("1 +", closed()), Err(Error::Rejected(_))));
    let part = EvalTimes { lookback: Duration::from_micros(1), ..closed() };
    assert_eq!(reaches("a", part), Err(Error::PartOfMillisecond));
}

#[test]
fn a_series_may_be_read() {
    let up = [("job", "web"), ("__name__", "up"), ("job", "é\"\n\u{1}"), ("team", "")];
    for (query, wanted) in [
        ("up{job='é\"\\n\\x01'}", true),
        ("up{job='web'}", false),
        ("max_over_time(up{team='',other=~'x?'}[5m:])", true),
        ("down + on () {__name__=~'d.*'}", false),
        ("1", false),
    ] {
        assert_eq!(may_read(query, up), Ok(wanted), "{query}");
    }
    let info = HashMap::from([("__name__".to_string(), "target_info".to_string())]);
    assert_eq!(may_read("info(down)", &info), Ok(true));
    let none: [(&str, &str); 0] = [];
    assert_eq!(may_read("{a!='b',c='d'}", [("c", "d")]), Ok(true));
    assert_eq!(may_read("up", none), Ok(false));
    assert!(matches!(may_read("1 +", up), Err(Error::Rejected(_))));
}
