//! Each function, its errors, and calls side by side.

use promql_proved::{
    Error, Layout, Rejection, Target, canonical, check, collect, enforce, format, json, placed_json, print_tree, rename_label,
    rename_metric, set_target, version,
};
use std::thread;

const LONG: &str = r#"sum by (job) (rate(http_requests_total{code=~"5.."}[5m])) / on (job) up > 0.125"#;

fn rejection(query: &str) -> Rejection {
    match check(query) {
        Err(Error::Rejected(rejection)) => rejection,
        other => panic!("{query}: {other:?}"),
    }
}

#[test]
fn queries_are_printed_on_one_line() {
    assert_eq!(canonical("1+(foo-2)").as_deref(), Ok("1 + (foo - 2)"));
    assert_eq!(canonical(r#"{b="1",a='2'}"#).as_deref(), Ok(r#"{a="2",b="1"}"#));
}

#[test]
fn long_texts_fit() {
    let query = "foo".repeat(10_000);
    assert!(canonical(&query) == Ok(query));
}

#[test]
fn queries_are_laid_out() {
    let narrow = Layout { width: 20, level: 1 };
    let wanted = "  sum by (job) (\n    rate(foo[5m])\n  )";
    assert_eq!(format("sum by (job) (rate(foo[5m]))", narrow).as_deref(), Ok(wanted));
    assert_eq!(format("a+b", Layout::default()).as_deref(), Ok("a + b"));
}

// (no other test has a query that a target reads otherwise or rejects)
#[test]
fn targets_read_otherwise_and_reject() {
    let query = r#"a{b="\xc3\xa9"}"#;
    let line = r#"a{b="Ã©"}"#;
    let placed = |found: Result<String, Error>| matches!(found, Err(Error::ReadOtherwise(it)) if it.range == (5..9));
    assert!(placed(check(query).map(|()| String::new())));
    assert!(placed(enforce(query, "c='1'")));
    assert!(placed(rename_metric(query, "a", "a")));
    assert!(matches!(enforce("a", r#"b="\xc3""#), Err(Error::MatcherReadOtherwise(_))));
    assert_eq!(canonical(query).as_deref(), Ok(line));
    set_target(Target::Rules);
    let found = (check(query), enforce(query, "c='1'"), rename_metric(query, "a", "a"));
    let all = check(r#"a{b="c" or d="e"} + rate(b[300])"#);
    set_target(Target::Prometheus2);
    let later = check("b[300]");
    set_target(Target::Prometheus3);
    assert_eq!(all, Ok(()));
    assert!(matches!(later, Err(Error::Refused(it)) if it.range == (2..5)));
    assert!(matches!(check(r#"a{b="c" or d="e"}"#), Err(Error::Refused(it)) if it.range == (8..10)));
    assert_eq!(check("b[300]"), Ok(()));
    assert_eq!(found, (Ok(()), Ok(r#"a{b="Ã©",c="1"}"#.to_owned()), Ok(line.to_owned())));
}

#[test]
fn trees_have_a_json_form() {
    assert_eq!(json("1").as_deref(), Ok(r#"{"type":"numberLiteral","val":"1"}"#));
    assert_eq!(json("foo[18446744073709551.616]"), Err(Error::NumberTooWide));
}

#[test]
fn forms_have_places() {
    let form = r#"{"end":2,"start":1,"type":"numberLiteral","val":"1"}"#;
    assert_eq!(placed_json(" 1").as_deref(), Ok(form));
    assert_eq!(placed_json("foo[18446744073709551.616]"), Err(Error::NumberTooWide));
    let form = placed_json("x{y='é'} / foo{a='b'}").unwrap();
    assert!(form.contains(r#"[{"end":21,"name":"a","start":16,"type":"=","value":"b"}]"#), "{form}");
}

#[test]
fn matchers_are_enforced() {
    let enforced = enforce("sum(rate(foo[5m])) / bar", r#"namespace="team-a""#);
    assert_eq!(enforced.as_deref(), Ok(r#"sum(rate(foo{namespace="team-a"}[5m])) / bar{namespace="team-a"}"#));
    let braces = r#"not a matcher: 1:6: unexpected "}", a matcher has no braces"#;
    assert_eq!(enforce("foo", r#"a="1"} or {b="2""#), Err(Error::NotAMatcher(braces.to_string())));
    assert_eq!(enforce("foo", r#"__name__="up""#), Err(Error::MetricName));
    let enforced = enforce("info(b, {c='2'})", r#"a="1""#);
    assert_eq!(enforced.as_deref(), Ok(r#"info(b{a="1"}, {a="1",c="2"})"#));
    assert_eq!(enforce("sum(c) + topk(scalar(info(b)), d)", r#"a="1""#), Err(Error::BareInfo));
    assert!(matches!(enforce("1 +", r#"a="1""#), Err(Error::Rejected(found)) if found.range == (3..3)));
}

#[test]
fn trees_are_printed() {
    let tree = json("foo / 2").unwrap();
    assert_eq!(print_tree(&tree, false, None).as_deref(), Ok("foo / 2"));
    let deeper = tree.replace(r#"{"type":"numberLiteral","val":"2"}"#, &json("1 + 2").unwrap());
    assert_eq!(print_tree(&deeper, true, None).as_deref(), Ok("foo / (1 + 2)"));
    assert_eq!(print_tree(&deeper, true, Some(Layout { width: 1, level: 0 })).unwrap().lines().count(), 7);
    let reason = "the right side of an operator needs parentheses";
    assert_eq!(print_tree(&deeper, false, None), Err(Error::Unfaithful(reason.to_owned())));
    let misfit = "$.op: an operator between two expressions";
    assert_eq!(print_tree(&tree.replace("/", "?"), false, None), Err(Error::NotATree(misfit.to_owned())));
}

#[test]
fn names_are_renamed() {
    let query = "sum by (job) (rate(a{job='b'}[5m]))";
    assert_eq!(rename_metric(query, "a", "c").as_deref(), Ok(r#"sum by (job) (rate(c{job="b"}[5m]))"#));
    assert_eq!(rename_label(query, "job", "d").as_deref(), Ok(r#"sum by (d) (rate(a{d="b"}[5m]))"#));
    assert_eq!(rename_metric(query, "a", "b.c"), Err(Error::NotAName));
    assert_eq!(rename_label(query, "job", "__name__"), Err(Error::MetricLabel));
    assert_eq!(rename_label("a{b='1',c='2'}", "b", "c"), Err(Error::Clash));
    assert!(matches!(rename_label("1 +", "a", "b"), Err(Error::Rejected(found)) if found.range == (3..3)));
}

#[test]
fn names_are_collected() {
    let names = r#"{"functions":["rate"],"labels":[],"metrics":["foo"],"selectors":[{"at":null,"matchers":"","name":"foo","offset":null,"range":"5m"}]}"#;
    assert_eq!(collect("rate(foo[5m])").as_deref(), Ok(names));
    assert!(matches!(collect("1 +"), Err(Error::Rejected(found)) if found.range == (3..3)));
}

#[test]
fn accepted_queries_are_checked() {
    assert_eq!(check(LONG), Ok(()));
    assert_eq!(canonical(LONG).as_deref(), Ok(LONG));
}

#[test]
fn errors_have_places() {
    let query = "up +\n rate({'foö'})";
    let found = rejection(query);
    assert_eq!(&query[found.range.clone()], "{'foö'}");
    assert_eq!((found.line, found.column), (2, 7));
    assert_eq!(found.message, "expected type matrix in call to function 'rate', got vector");
    assert_eq!(found.snippet(query), " rate({'foö'})\n      ^~~~~~~");
    let error = canonical(query).unwrap_err();
    assert_eq!(error.to_string(), format!("2:7: {}", found.message));
}

#[test]
fn rejections_are_explained() {
    for (query, expected, found, message) in [
        ("foo{a=b}", r#"string"#, r#"identifier "b""#, r#"unexpected identifier "b", expected string"#),
        (r#"foo{a=="b"}"#, "string", r#""=""#, r#"unexpected "=", expected string; a matcher has one "=""#),
        ("sum by (job 1) (foo)", r#""," ")""#, r#"number "1""#, r#"unexpected number "1", expected "," or ")""#),
        (r#"foo{a=~"\\w{400}"b}"#, r#""," "}" "or""#, r#"identifier "b""#, r#"unexpected identifier "b", expected ",", "}" or "or""#),
    ] {
        let told = rejection(query).explain(query);
        assert_eq!((told.expected.join(" "), told.found.as_deref(), told.message), (expected.to_owned(), Some(found), message.to_owned()));
    }
}

#[test]
fn too_many_levels_are_explained() {
    let query = ["a"; 513].join(" + ");
    let told = rejection(&query).explain(&query);
    assert!(told.message.starts_with("more than 512 levels: "));
    assert_eq!((told.expected, told.found), (Vec::new(), None));
}

#[test]
fn some_rejections_have_no_more_to_tell() {
    // Not a syntax error; a query that the rejection is not of.
    for (query, other, message) in [("nosuch(1)", "nosuch(1)", "unknown function with name 'nosuch'"), ("1 +", "1", "invalid promql query")]
    {
        let told = rejection(query).explain(other);
        assert_eq!((told.expected, told.found, told.message), (Vec::new(), None, message.to_owned()));
    }
}

#[test]
fn the_end_of_a_query_is_a_place() {
    assert_eq!(rejection("1 +").range, 3..3);
    assert_eq!(rejection("").range, 0..0);
}

#[test]
fn a_part_outside_of_the_query_is_shown() {
    let mut found = rejection("1 +");
    (found.range.start, found.range.end) = (90, 80);
    found.snippet("1 +");
}

// The limits of the process stay as they are, since other tests run meanwhile.
#[test]
fn a_query_past_its_limits_is_too_large() {
    match check(r#"a{b=~"c{3000}"}"#) {
        Err(Error::TooLarge(found)) => {
            assert_eq!(found.to_string(), "1:6: patterns are too large: 39013, at most 16000");
            assert_eq!(found.range, 5..14);
        }
        other => panic!("{other:?}"),
    }
    assert_eq!(format("a", Layout { width: 1, level: 513 }), Err(Error::LevelTooHigh));
}

#[test]
fn a_matcher_and_the_query_with_it_have_limits() {
    let matcher = "the matcher is not within the limits: patterns are too large: 16003, at most 16000";
    let line = "the enforced query is not within the limits: patterns are too large: 31980, at most 16000";
    for (query, enforced, message) in [("foo", "a=~'b{1230}'", matcher), ("c + d", "a=~'b{1229}'", line)] {
        let error = enforce(query, enforced).unwrap_err();
        assert_eq!(error.to_string(), message);
        assert_eq!(error, Error::LargeEnforced(message.to_string()));
    }
    assert_eq!(enforce("foo", "a=~'b{1229}'").as_deref(), Ok(r#"foo{a=~"b{1229}"}"#));
}

#[test]
fn versions_agree() {
    assert_eq!(version(), env!("CARGO_PKG_VERSION"));
}

#[test]
fn threads_get_the_same() {
    let wanted = format(LONG, Layout { width: 30, level: 0 });
    thread::scope(|scope| {
        for _ in 0..8 {
            scope.spawn(|| {
                for _ in 0..500 {
                    assert_eq!(format(LONG, Layout { width: 30, level: 0 }), wanted);
                    assert_eq!(rejection("rate(foo)").range, 5..8);
                }
            });
        }
    });
}

/// Queries that need much of a stack: parentheses, and patterns of as many nested groups as are read, and of more.
fn deep_queries() -> Vec<String> {
    let nested = |opens: &str, count, inner: &str, closes: &str| [opens.repeat(count), inner.to_string(), closes.repeat(count)].concat();
    let mut queries = vec![nested("(", 510, "1", ")"), "(".repeat(510)];
    for (opens, closes) in [("(", ")"), ("(?:", ")"), ("[", "]")] {
        for count in [248, 250] {
            queries.push(std::format!("{{a=~'{}'}}", nested(opens, count, "b", closes)));
        }
    }
    queries.push(nested("abs(", 511, &queries[2], ")"));
    queries
}

#[test]
fn a_small_stack_is_an_error() {
    let queries = deep_queries();
    let outcomes = || -> Vec<_> { queries.iter().map(|query| canonical(query)).collect() };
    let wanted = outcomes();
    assert!(wanted.iter().all(|outcome| *outcome != Err(Error::SmallStack)));
    for kib in [64, 128, 256, 512, 1024, 1536, 2048] {
        thread::scope(|scope| {
            let builder = thread::Builder::new().stack_size(kib * 1024);
            let found = builder.spawn_scoped(scope, outcomes).unwrap().join().unwrap();
            let is_small = found.iter().all(|outcome| *outcome == Err(Error::SmallStack));
            // A thread may have more than it asked for: the stack of one that ended.
            assert!(if kib <= 256 { is_small } else { found == wanted || is_small && kib < 1280 }, "{kib}");
        });
    }
}

#[test]
fn errors_are_sent_to_other_threads() {
    fn is_sent<T: std::error::Error + Send + Sync + 'static>() {}
    is_sent::<Error>();
}
