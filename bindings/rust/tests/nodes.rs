//! Nodes and their parts: as texts, over their children, out of other values, and with their places.

use promql_proved::*;

fn parsed(query: &str) -> Expr {
    query.parse().unwrap_or_else(|error| panic!("{query}: {error}"))
}

fn matcher(op: MatchOp, name: &str, value: &str) -> Matcher {
    Matcher::new(op, name, value)
}

#[test]
fn matchers_have_texts() {
    for text in [
        r#"a="""#,
        r#"b="a""#,
        r#"zz!="}""#,
        r#"b=~"c|d""#,
        r#"b!~".*""#,
        r#"b="\"\\\n""#,
        r#""a.b"="é""#,
        r#"__name="=,a""#,
        r#"__name__="up""#,
        r#"__name__="a.b""#,
        r#"__name__!="up""#,
        r#"__name__=~"up|a""#,
        r#"A="}""#,
    ] {
        let tree = parsed(&format!("{{z='1',{text}}}"));
        let found: Vec<String> =
            tree.as_selector().unwrap().matchers.matchers.iter().filter(|it| it.name != "z").map(ToString::to_string).collect();
        assert_eq!(found, [text]);
    }
    for (wrong, message) in [
        (matcher(MatchOp::Re, "a", "("), "<$.matchers[0].value: "),
        (matcher(MatchOp::Re, "__name__", "("), "<$.matchers[0].value: "),
        (matcher(MatchOp::Re, "a", "b{3000}"), "<$: patterns are too large: "),
    ] {
        assert!(wrong.to_string().starts_with(message), "{wrong}");
    }
}

#[test]
fn modifiers_have_texts() {
    for (at, text) in [(AtModifier::Start, "@ start()"), (AtModifier::End, "@ end()"), (AtModifier::At(-1500), "@ -1.500")] {
        assert_eq!(at.to_string(), text);
        assert_eq!(parsed(&format!("foo {at}")).as_selector().unwrap().at, Some(at));
    }
    for (mode, text) in [(RangeMode::Plain, ""), (RangeMode::Smoothed, "smoothed"), (RangeMode::Anchored, "anchored")] {
        assert_eq!(mode.to_string(), text);
    }
    assert_eq!(VectorMatching::default().to_string(), "");
    for text in ["on ()", "on (b)", "ignoring (b)", "on (b) group_left ()", "on (b) group_right (c, d)", "on (b) fill_left (1)"] {
        let query = format!("a / {text} a");
        assert!(matches!(parsed(&query), Expr::Binary(it) if it.matching.as_ref().unwrap().to_string() == text), "{query}");
    }
    assert!(matches!(parsed("a and on (b) a"), Expr::Binary(it) if it.matching.as_ref().unwrap().to_string() == "on (b)"));
    let card = VectorMatchCardinality::ManyToOne(vec![String::from("c")]);
    let wrong = VectorMatching { card, on: true, labels: vec![String::from("c")], ..VectorMatching::default() };
    assert!(wrong.to_string().starts_with("<$: "), "{wrong}");
}

#[test]
fn nodes_have_the_texts_of_their_expressions() {
    for text in ["sum by (a) (b)", "-a", "1 + a", "(a)", "a[1h:5m]", "0.5", "\"a\"", "a{b=\"c\"} offset 5m", "a[5m]", "abs(a)"] {
        let shown = match parsed(text) {
            Expr::Aggregate(it) => it.to_string(),
            Expr::Unary(it) => it.to_string(),
            Expr::Binary(it) => it.to_string(),
            Expr::Paren(it) => it.to_string(),
            Expr::Subquery(it) => it.to_string(),
            Expr::NumberLiteral(it) => it.to_string(),
            Expr::StringLiteral(it) => it.to_string(),
            Expr::VectorSelector(it) => it.to_string(),
            Expr::MatrixSelector(it) => it.to_string(),
            Expr::Call(it) => it.to_string(),
        };
        assert_eq!(shown, text);
    }
    assert_eq!(NumberLiteral { val: String::from("one") }.to_string().get(..7), Some("<$.val:"));
}

#[test]
fn children_are_iterated_over() {
    for (query, children) in [
        ("topk(5, a)", &["5", "a"][..]),
        ("sum(a)", &["a"]),
        ("-a", &["a"]),
        ("(a)", &["a"]),
        ("a + b", &["a", "b"]),
        ("a[1h:]", &["a"]),
        ("label_replace(a, 'b', 'c', 'd', 'e')", &["a", "\"b\"", "\"c\"", "\"d\"", "\"e\""]),
        ("time()", &[]),
        ("1", &[]),
        ("'a'", &[]),
        ("a", &[]),
        ("a[5m]", &[]),
    ] {
        let mut tree = parsed(query);
        let forward: Vec<String> = tree.iter_children().map(ToString::to_string).collect();
        assert_eq!(forward, children);
        let mut backward: Vec<String> = tree.iter_children_mut().rev().map(|it| it.to_string()).collect();
        backward.reverse();
        assert_eq!(backward, children);
        assert_eq!(tree.iter_children().count(), tree.children_mut().len());
        tree.iter_children_mut().for_each(|child| *child = Expr::selector("c"));
        assert!(tree.children().into_iter().all(|child| child == &Expr::selector("c")), "{query}");
    }
}

#[test]
fn values_become_parts_of_trees() {
    let selector = VectorSelector { name: Some(String::from("a")), ..VectorSelector::default() };
    let with_range = MatrixSelector { vs: selector.clone(), range: 300_000, mode: RangeMode::Plain };
    let call = Call { name: String::from("rate"), args: [with_range.into()].into() };
    assert_eq!(Expr::from(call), parsed("rate(a[5m])"));
    let paren = ParenExpr { expr: Expr::from(selector).into() };
    assert_eq!(Expr::from(paren.clone()), parsed("(a)"));
    assert_eq!(Expr::from(paren.expr), parsed("a"));
    assert_eq!(Expr::from(StringLiteral::from("b")), parsed("'b'"));
    assert_eq!(StringLiteral::from(String::from("b")), StringLiteral::from("b"));
    let matchers = Matchers::from([matcher(MatchOp::Equal, "b", "c")]);
    assert_eq!(matchers, vec![matcher(MatchOp::Equal, "b", "c")].into());
    let named = VectorSelector { matchers, ..VectorSelector::default() };
    assert_eq!(Expr::from(named), parsed("{b='c'}"));
    assert_eq!(Vec::from(Children::from([1.0.into(), parsed("a")])), [parsed("1"), parsed("a")]);
    let read = |form: &str| -> Result<Expr, Error> { Ok(Expr::from_json(form)?) };
    assert!(matches!(read("{}"), Err(Error::Form(fault)) if fault.path == "$.type"));
    let fault = match print(&Expr::call("nope", [])) {
        Err(Error::Node(fault)) => fault,
        other => panic!("{other:?}"),
    };
    assert_eq!(Error::from(fault.clone()), Error::Node(fault));
}

#[test]
fn trees_are_equal_with_and_without_places() {
    let query = "sum by (job) (rate(a{job='é'}[5m])) / -1";
    let placed = parse_placed(query).unwrap();
    assert_eq!((&placed.expr, &placed.places), (&parsed(query), &places(query).unwrap()));
    let parts: Vec<&str> = placed.walk().map(|(_, place)| &query[place]).collect();
    assert_eq!(parts, [query, "sum by (job) (rate(a{job='é'}[5m]))", "rate(a{job='é'}[5m])", "a{job='é'}[5m]", "-1"]);
    assert!(placed.walk().all(|(expr, place)| canonical(&query[place]).unwrap() == expr.to_string()));
    let other = parse_placed("sum  by (job) (rate(a{job='é'}[5m])) / -1").unwrap();
    assert_eq!(placed.expr, other.expr);
    assert_ne!(placed, other);
    assert_eq!(placed, placed.clone());
    assert!(matches!(parse_placed("1 +"), Err(Error::Rejected(found)) if found.range == (3..3)));
}

#[test]
fn durations_have_no_part_of_a_millisecond() {
    use std::time::Duration;
    for (duration, count) in [(0, 0), (1_000_000, 1), (300_000_000_000, 300_000)] {
        assert_eq!(milliseconds(Duration::from_nanos(duration)), Ok(count));
    }
    for duration in
        [Duration::from_nanos(1), Duration::from_micros(1500), Duration::from_nanos(999_999), Duration::MAX, Duration::from_secs(u64::MAX)]
    {
        assert_eq!(milliseconds(duration), Err(DurationError(duration)));
    }
}
