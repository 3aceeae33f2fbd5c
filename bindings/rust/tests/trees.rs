//! Trees: read, walked, changed, written as JSON and printed.

use promql_proved::*;

fn parsed(query: &str) -> Expr {
    query.parse().unwrap_or_else(|error| panic!("{query}: {error}"))
}

fn texts(labels: &[&str]) -> Vec<String> {
    labels.iter().map(ToString::to_string).collect()
}

fn boxed(expr: Expr) -> Child {
    expr.into()
}

fn number(val: &str) -> Expr {
    Expr::NumberLiteral(NumberLiteral { val: val.to_string() })
}

fn binary(op: &str, lhs: Expr, rhs: Expr, matching: Option<VectorMatching>) -> BinaryExpr {
    BinaryExpr { op: op.to_string(), lhs: boxed(lhs), rhs: boxed(rhs), return_bool: false, matching }
}

fn rate() -> Expr {
    let groups = vec![vec![Matcher::new(MatchOp::Equal, "a", "1")], vec![Matcher::new(MatchOp::NotRe, "b", "2")]];
    let vs = VectorSelector {
        name: Some(String::from("foo")),
        matchers: Matchers { matchers: Vec::new(), or_matchers: groups },
        offset: -300_000,
        at: Some(AtModifier::End),
    };
    Expr::call("rate", [Expr::MatrixSelector(MatrixSelector { vs, range: 60_000, mode: RangeMode::Anchored })])
}

/// Queries with their trees.
fn trees() -> Vec<(&'static str, Expr)> {
    let named = || Expr::selector("foo");
    let paren = Expr::Paren(ParenExpr { expr: boxed(named()) });
    let fill_values = VectorMatchFillValues { lhs: None, rhs: Some(String::from("1")) };
    let card = VectorMatchCardinality::ManyToOne(texts(&["c"]));
    let matching = VectorMatching { card, on: true, labels: texts(&["b"]), fill_values };
    let sets = VectorMatching { card: VectorMatchCardinality::ManyToMany, ..VectorMatching::default() };
    let compared = binary("==", named(), number("1"), Some(VectorMatching::default()));
    let at = Some(AtModifier::At(-1500));
    let subquery = SubqueryExpr { expr: boxed(named()), range: 3_600_000, step: Some(300_000), offset: 60_000, at };
    let topk = AggregateExpr {
        op: String::from("topk"),
        expr: boxed(named()),
        param: Some(boxed(0.5.into())),
        grouping: texts(&["a", "b"]),
        without: true,
    };
    vec![
        ("-Inf", f64::NEG_INFINITY.into()),
        ("'a\"\\n'", Expr::StringLiteral(StringLiteral { val: String::from("a\"\n") })),
        ("-(foo)", Expr::Unary(UnaryExpr { expr: boxed(paren) })),
        ("time()", Expr::call("time", [])),
        ("rate(foo{a='1' or b!~'2'}[1m] anchored offset -5m @ end())", rate()),
        ("foo[1h:5m] @ -1.5 offset 1m", Expr::Subquery(subquery)),
        ("topk without (a, b) (0.5, foo)", Expr::Aggregate(topk)),
        ("foo == bool 1", Expr::Binary(BinaryExpr { return_bool: true, ..compared })),
        ("foo and foo", Expr::Binary(binary("and", named(), named(), Some(sets)))),
        ("foo / on (b) group_left (c) fill_right (1) foo", Expr::Binary(binary("/", named(), named(), Some(matching)))),
    ]
}

#[test]
fn queries_have_trees() {
    for (query, tree) in trees() {
        assert_eq!(parse(query).as_ref(), Ok(&tree), "{query}");
        assert_eq!(Expr::from_json(&tree.to_json()).as_ref(), Ok(&tree), "{query}");
    }
    assert!(matches!("1 +".parse::<Expr>(), Err(Error::Rejected(found)) if found.range == (3..3)));
}

#[test]
fn the_form_is_that_of_the_library() {
    for query in ["1", "'é\u{7f}'", "foo", "-(foo)", "sum(foo)", "foo{a='1'}[5m]", "round(foo, 2)", "a + on (b) c", "foo[5m:]"] {
        let form = json(query).unwrap();
        assert_eq!(Expr::from_json(&form).unwrap().to_json(), form);
    }
}

#[test]
fn other_texts_are_no_forms() {
    let up = r#"{"name":"up","matchers":[],"offset":0,"startOrEnd":null,"timestamp":null,"type":"vectorSelector""#;
    let time = r#""func":{"argTypes":[],"experimental":false,"name":"time","returnType":"scalar","variadic":"#;
    let offset = "$.offset: expected a whole number from -2^63 to 2^64 - 1";
    let matcher = r#"[{"name":"a","type":"~","value":""}]"#;
    for (form, message) in [
        (String::new(), "$: not JSON"),
        (format!("{up}}} 1"), "$: not JSON"),
        (format!("{up},}}"), "$: not JSON"),
        (String::from(r#"{"type":"numberLiteral","val":"\ud800"}"#), "$: not JSON"),
        (String::from("null"), "$: expected an object"),
        (String::from("{}"), "$.type: expected such a member"),
        (String::from(r#"{"type":"numberLiteral","val":1}"#), "$.val: expected a string"),
        (format!(r#"{up},"more":0}}"#), "$.more: unknown member"),
        (String::from(r#"{"type":"parenExpr","expr":null}"#), "$.expr: expected an object"),
        (up.replace('0', "1.5") + "}", offset),
        (up.replace('0', "18446744073709551616") + "}", offset),
        (up.replace("[]", matcher) + "}", "$.matchers[0].type: expected one of =, !=, =~, !~"),
        (format!(r#"{up},"or_matchers":[[],1]}}"#), "$.or_matchers[1]: expected a list"),
        (format!(r#"{{"type":"call","args":[{up}}},1],{time}0}}}}"#), "$.args[1]: expected an object"),
        (format!(r#"{{"type":"call","args":[],{time}1}}}}"#), "$.func: expected the function time"),
    ] {
        assert_eq!(Expr::from_json(&form).unwrap_err().to_string(), message, "{form}");
    }
}

#[test]
fn escapes_of_json_are_read() {
    let form = r#" { "val" : "a\"\\\/\b\f\n\r\t\u00e9\ud83e\udd80" , "type" : "stringLiteral" } "#;
    let val = String::from("a\"\\/\u{8}\u{c}\n\r\té🦀");
    let expr = Expr::StringLiteral(StringLiteral { val });
    assert_eq!(Expr::from_json(form).as_ref(), Ok(&expr));
    assert_eq!(Expr::from_json(&expr.to_json()), Ok(expr));
}

/// The operators and names that it sees, and where it ends.
#[derive(Default)]
struct Seen {
    words: Vec<String>,
    last: Option<&'static str>,
}

impl Seen {
    fn see(&mut self, expr: &Expr, mark: &str) -> bool {
        let word = match expr {
            Expr::Binary(it) => it.op.clone(),
            Expr::Aggregate(it) => it.op.clone(),
            Expr::Unary(_) => String::from("minus"),
            Expr::NumberLiteral(it) => it.val.clone(),
            _ => expr.as_selector().and_then(|it| it.name.clone()).unwrap_or_default(),
        };
        let goes_on = self.last != Some(&word);
        self.words.push(mark.to_string() + &word);
        goes_on
    }
}

impl ExprVisitor for Seen {
    type Error = ();

    fn pre_visit(&mut self, expr: &Expr) -> Result<bool, ()> {
        Ok(self.see(expr, ""))
    }

    fn post_visit(&mut self, expr: &Expr) -> Result<bool, ()> {
        self.see(expr, "/");
        Ok(true)
    }
}

#[test]
fn trees_are_walked() {
    let tree = parsed("topk(5, a) + -b");
    let mut seen = Seen::default();
    assert_eq!(walk_expr(&mut seen, &tree), Ok(true));
    assert_eq!(seen.words.join(" "), "+ topk 5 /5 a /a /topk minus b /b /minus /+");
    let mut seen = Seen { last: Some("a"), ..Seen::default() };
    assert_eq!(walk_expr(&mut seen, &tree), Ok(false));
    assert_eq!(seen.words.join(" "), "+ topk 5 /5 a");
    assert_eq!(tree.walk().count(), 6);
}

struct AddMatcher(Matcher);

impl ExprVisitorMut for AddMatcher {
    type Error = ();

    fn pre_visit(&mut self, expr: &mut Expr) -> Result<bool, ()> {
        if let Some(selector) = expr.as_selector_mut() {
            selector.matchers.add(&self.0);
        }
        Ok(true)
    }
}

#[test]
fn trees_are_changed() {
    let mut tree = parsed("sum(rate(a{b='1' or c='2'}[5m])) / topk(1, (d))");
    assert_eq!(walk_expr_mut(&mut AddMatcher(Matcher::new(MatchOp::Equal, "t", "x")), &mut tree), Ok(true));
    let tree = tree.transform(&mut |expr| match expr {
        Expr::Paren(it) => it.expr.into_inner(),
        other => other,
    });
    assert_eq!(tree, parsed("sum(rate(a{b='1',t='x' or c='2',t='x'}[5m])) / topk(1, d{t='x'})"));
}

#[test]
fn numbers_have_texts() {
    for (value, text) in [(0.0, "0"), (-0.0, "0"), (-3.0, "-3"), (0.5, "0.5"), (1e21, "1000000000000000000000"), (1e-7, "0.0000001")] {
        let number = NumberLiteral::from(value);
        assert_eq!(number.val, text);
        assert_eq!(number.to_f64(), value);
    }
    assert_eq!(NumberLiteral::from(f64::INFINITY).to_f64(), f64::INFINITY);
    assert_eq!(NumberLiteral::from(f64::NAN).val, "NaN");
}

#[test]
fn functions_have_types() {
    let function = get_function("label_replace").unwrap();
    assert_eq!((function.arg_types.len(), function.arg_types[4], function.return_type), (5, ValueType::String, ValueType::Vector));
    assert_eq!(get_function("sum"), None);
}

#[test]
fn trees_have_texts() {
    for (query, tree) in trees() {
        assert_eq!(print(&tree), canonical(query), "{query}");
        assert_eq!(tree.to_string(), canonical(query).unwrap());
    }
    let total = Expr::Binary(binary("+", Expr::selector("a"), Expr::selector("b"), None));
    let product = Expr::Binary(binary("*", total, Expr::selector("c"), None));
    assert_eq!(print(&product).as_deref(), Ok("(a + b) * c"));
    let narrow = Layout { width: 5, level: 1 };
    assert_eq!(print_layout(&product, narrow), promql_proved::format("(a + b) * c", narrow));
    assert_eq!(print_layout(&product, Layout { level: 513, ..narrow }), Err(Error::LevelTooHigh));
}

/// The fault of a tree.
fn fault(tree: &Expr) -> NodeError {
    match print(tree) {
        Err(Error::Node(fault)) => fault,
        other => panic!("{other:?}"),
    }
}

#[test]
fn faults_name_their_nodes() {
    let wrong = Expr::call("rate", [Expr::selector("foo")]);
    let tree = Expr::Binary(binary("+", number("1"), Expr::aggregate_by("sum", &[], wrong.clone()), None));
    let found = fault(&tree);
    assert_eq!((&*found.path, found.node(&tree)), ("$.rhs.expr", &wrong));
    assert!(matches!(*found.cause, Error::Unfaithful(_)));
    let with_pattern = |value: &str| {
        let mut expr = Expr::selector("a");
        expr.as_selector_mut().unwrap().matchers.add(&Matcher::new(MatchOp::Re, "b", value));
        expr
    };
    let tree = Expr::Paren(ParenExpr { expr: boxed(with_pattern("(")) });
    assert_eq!(fault(&tree).node(&tree), &with_pattern("("));
    assert!(matches!(*fault(&with_pattern("c{3000}")).cause, Error::TooLargeTree(_)));
    assert_eq!(Expr::call("rates", []).to_string().get(..2), Some("<$"));
    let deep = (0..200).fold(number("1"), |expr, _| Expr::Paren(ParenExpr { expr: boxed(expr) }));
    assert_eq!(print(&deep).unwrap_err().to_string(), "$: nested too deeply");
}

#[test]
fn large_trees_are_rejected() {
    let said = |form: &str| match print_tree(form, false, None) {
        Err(Error::TooLargeTree(message)) => message,
        other => panic!("{other:?}"),
    };
    assert_eq!(said(r#"{"type":"=~","value":"c{3000}"}"#), "patterns are too large: 39013, at most 16000");
    let two = r#"[{"type":"=~","value":"c{1000}"},[{"type":"!~","value":"c{1000}"}]]"#;
    assert_eq!(said(two), "patterns are too large: 26026, at most 16000");
    // (the limit is that of all tests, which print no tree as long as this one)
    let long = format!(r#"{{"type":"stringLiteral","val":"{}"}}"#, "a".repeat(20_000));
    set_max_tree(20_032);
    assert_eq!(said(&long), "tree is too long: 20033 bytes, at most 20032");
    set_max_tree(4_194_304);
    assert_eq!(print_tree(&long, false, None).unwrap().len(), 20_002);
}

#[test]
fn nodes_have_places() {
    let query = "sum by (job) (rate(a{job='é'}[5m])) / -1";
    let parts: Vec<&str> = places(query).unwrap().into_iter().map(|it| &query[it]).collect();
    assert_eq!(parts, [query, "sum by (job) (rate(a{job='é'}[5m]))", "rate(a{job='é'}[5m])", "a{job='é'}[5m]", "-1"]);
    assert!(matches!(places("1 +"), Err(Error::Rejected(found)) if found.range == (3..3)));
}

#[test]
fn nodes_have_parts() {
    let query = "sum by (job) (rate(a{job='é'}[5m] offset 1m)) > on (b) group_left (c) d";
    let found: Vec<Vec<(PartKind, &str)>> =
        parts(query).unwrap().into_iter().map(|it| it.into_iter().map(|it| (it.kind, &query[it.range])).collect()).collect();
    let of_selector =
        [(PartKind::Name, "a"), (PartKind::Matcher, "job='é'"), (PartKind::Selector, "a{job='é'}"), (PartKind::Range, "[5m]")];
    assert_eq!(found.len(), places(query).unwrap().len());
    assert_eq!(found[0], [(PartKind::Operator, ">"), (PartKind::Label, "b"), (PartKind::GroupLabel, "c")]);
    assert_eq!(found[1], [(PartKind::Operator, "sum"), (PartKind::Label, "job")]);
    assert_eq!(found[2], [(PartKind::Name, "rate")]);
    assert_eq!(found[3][..4], of_selector);
    assert_eq!(found[3][4..], [(PartKind::Offset, "offset 1m")]);
    assert!(matches!(parts("1 +"), Err(Error::Rejected(found)) if found.range == (3..3)));
}

#[test]
fn differences_are_told() {
    let found = differences("exp(Inf) + -0").unwrap();
    let shown: Vec<_> = found.iter().map(|it| (it.is_rejected, it.range.clone(), it.message.as_str())).collect();
    let wanted = [
        (false, 11..12, "Prometheus reads this otherwise: the number is negative zero there, and zero here"),
        (true, 0..3, "Prometheus 3 rejects this: the argument is an instant vector there; write vector(..) around the number"),
    ];
    assert_eq!(shown, wanted);
    assert!(differences("a").unwrap().is_empty());
    assert!(matches!(differences("1 +"), Err(Error::Rejected(found)) if found.range == (3..3)));
}

#[test]
fn any_text_has_tokens() {
    let text = "Sum(a{b=~'é'}[5m:]) AND 1 # c\n; 'd";
    let found: Vec<(TokenKind, &str)> = tokens(text).unwrap().into_iter().map(|it| (it.kind, &text[it.range])).collect();
    let punctuation = |it| (TokenKind::Punctuation, it);
    let wanted = [
        (TokenKind::Aggregator, "Sum"),
        punctuation("("),
        (TokenKind::Name, "a"),
        punctuation("{"),
        (TokenKind::Name, "b"),
        (TokenKind::Operator, "=~"),
        (TokenKind::String, "'é'"),
        punctuation("}"),
        punctuation("["),
        (TokenKind::Duration, "5m"),
        punctuation(":"),
        punctuation("]"),
        punctuation(")"),
        (TokenKind::Operator, "AND"),
        (TokenKind::Number, "1"),
        (TokenKind::Comment, "# c"),
        (TokenKind::Error, ";"),
        (TokenKind::Error, "'d"),
    ];
    assert_eq!(found, wanted);
    assert_eq!(tokens("").unwrap(), []);
    assert!(matches!(tokens(&" ".repeat(32_769)), Err(Error::TooLarge(_))));
}

/// A query with a list of so many items in each place of a tree that has one, and what `from_json` and `print` make of it.
#[test]
fn lists_of_any_length_are_read_and_printed() {
    for count in [0, 1, 21, 1_000] {
        let labels = (0..count).map(|number| format!("l{number:04}")).collect::<Vec<_>>().join(", ");
        let matchers = (0..count).map(|number| format!("l{number:04}=\"1\"")).collect::<Vec<_>>().join(",");
        let groups = (0..count.max(2)).map(|number| format!("l{number:04}=\"1\"")).collect::<Vec<_>>().join(" or ");
        let args = (0..count.max(3)).map(|number| format!("\"l{number:04}\"")).collect::<Vec<_>>().join(", ");
        for query in [
            format!("sum by ({labels}) (a)"),
            format!("sum without ({labels}) (a)"),
            format!("a + on ({labels}) b"),
            format!("a + ignoring (x) group_left ({labels}) b"),
            format!("a + on () group_right ({labels}) b"),
            format!("a{{x=\"1\",{matchers}}}"),
            format!("a{{{groups}}}[5m]"),
            format!("label_join(a, {args})"),
        ] {
            let line = canonical(&query).unwrap();
            let tree = parsed(&query);
            assert_eq!(tree.to_json(), json(&query).unwrap(), "{query}");
            assert_eq!(Expr::from_json(&tree.to_json()).as_ref(), Ok(&tree), "{query}");
            assert_eq!(print(&tree), Ok(line), "{query}");
        }
    }
}

#[test]
fn an_empty_matching_below_a_grouping_stays() {
    for (query, card) in [
        ("a + ignoring () group_left () b", VectorMatchCardinality::ManyToOne(Vec::new())),
        ("a + ignoring () group_right (c) b", VectorMatchCardinality::OneToMany(texts(&["c"]))),
    ] {
        let matching = VectorMatching { card, ..VectorMatching::default() };
        let tree = Expr::Binary(binary("+", Expr::selector("a"), Expr::selector("b"), Some(matching)));
        assert_eq!(parse(query).as_ref(), Ok(&tree));
        assert_eq!(Expr::from_json(&tree.to_json()).as_ref(), Ok(&tree));
        assert_eq!(print(&tree).as_deref(), Ok(query));
        assert_eq!(canonical(query).as_deref(), Ok(query));
    }
}

#[test]
fn long_texts_are_in_errors_as_they_are() {
    let long = "é".repeat(35_000);
    let error = Expr::from_json(&format!(r#"{{"type":"numberLiteral","val":"1","{long}":1}}"#)).unwrap_err();
    assert_eq!((error.path, &*error.message), (format!("$.{long}"), "unknown member"));
    let error = print_tree(&format!(r#"{{"type":"numberLiteral","val":"1","{long}":1}}"#), true, None).unwrap_err();
    assert_eq!(error, Error::NotATree(format!("$.{long}: no such member")));
    for tree in [Expr::call(&long, []), number(&long), Expr::aggregate_by(&long, &[], Expr::selector("a"))] {
        assert!(fault(&tree).message.len() < 100);
        assert_eq!(Expr::from_json(&tree.to_json()).is_ok(), !matches!(tree, Expr::Call(_)));
    }
    assert!(matches!(*fault(&Expr::selector(&long)).cause, Error::TooLargeTree(_)));
}

#[test]
fn long_names_are_read_and_printed() {
    let name = "n".repeat(200);
    let query = format!("sum by ({name}) ({name}{{{name}=\"1\"}})");
    assert_eq!(print(&parsed(&query)).as_deref(), Ok(&*query));
    let tree = Expr::Paren(ParenExpr { expr: boxed(Expr::call(&name, [])) });
    assert_eq!(fault(&tree).node(&tree), &Expr::call(&name, []));
    assert!(matches!(parse(&format!("{name}(a)")), Err(Error::Rejected(rejection)) if rejection.range == (0..200)));
}

#[test]
fn faults_have_kinds() {
    let fault = |expr: Expr| match print(&expr) {
        Err(Error::Node(error)) => error.fault(),
        other => panic!("{other:?}"),
    };
    let up = || Expr::selector("up");
    let high = (0..200).fold(up(), |expr, _| ParenExpr { expr: expr.into() }.into());
    let pattern = |value: &str| VectorSelector { matchers: [Matcher::new(MatchOp::Re, "a", value)].into(), ..VectorSelector::default() };
    let range = MatrixSelector {
        vs: VectorSelector { name: Some(String::from("up")), ..VectorSelector::default() },
        range: 0,
        mode: RangeMode::Plain,
    };
    assert_eq!(fault(Expr::call("nope", [up()])), NodeFault::UnknownFunction);
    assert_eq!(fault(high), NodeFault::TooDeep);
    assert_eq!(fault(pattern("(").into()), NodeFault::NotATree);
    assert_eq!(fault(pattern("b{3000}").into()), NodeFault::TooLarge);
    assert_eq!(fault(range.into()), NodeFault::Unfaithful);
    assert_eq!(fault(Expr::call("rate", [up()])), NodeFault::Unfaithful);
}
