//! Trees and forms that are made to be dear: deep, wide, long, or with much of one thing.

use promql_proved::*;
use std::collections::hash_map::DefaultHasher;
use std::hash::{Hash, Hasher};
use std::thread;
use std::time::{Duration, Instant};

const ONE: &str = r#"{"type":"numberLiteral","val":"1"}"#;
const TOO_HIGH: &str = "expected a tree of at most 512 nodes above one another";

/// What is before and after an expression in the form of one of each kind above it.
const AROUND: [(&str, &str); 7] = [
    (r#"{"expr":"#, r#","type":"parenExpr"}"#),
    (r#"{"expr":"#, r#","op":"-","type":"unaryExpr"}"#),
    (r#"{"bool":false,"matching":null,"op":"+","type":"binaryExpr","rhs":{"type":"numberLiteral","val":"1"},"lhs":"#, "}"),
    (
        r#"{"type":"call","func":{"argTypes":["vector"],"experimental":false,"name":"abs","returnType":"vector","variadic":0},"args":["#,
        "]}",
    ),
    (r#"{"expr":"#, r#","grouping":[],"op":"sum","param":null,"type":"aggregation","without":false}"#),
    (r#"{"expr":{"type":"numberLiteral","val":"1"},"grouping":[],"op":"topk","type":"aggregation","without":false,"param":"#, "}"),
    (r#"{"expr":"#, r#","offset":0,"range":1,"startOrEnd":null,"step":null,"timestamp":null,"type":"subquery"}"#),
];

/// The form of a number below so many expressions of a kind.
fn high_form((before, after): (&str, &str), count: usize) -> String {
    [&*before.repeat(count), ONE, &*after.repeat(count)].concat()
}

/// Runs a function in a thread with so much stack. (It may have more: the stack of a thread that ended.)
fn with_stack<T: Send>(kib: usize, function: impl FnOnce() -> T + Send) -> T {
    thread::scope(|scope| {
        let builder = thread::Builder::new().stack_size(kib * 1024);
        builder.spawn_scoped(scope, function).unwrap().join().unwrap()
    })
}

/// What `from_json` says; the tree is dropped.
fn said(form: &str) -> Result<(), FormError> {
    Expr::from_json(form).map(drop)
}

#[test]
fn forms_of_any_height_are_read_with_little_stack() {
    for around in AROUND {
        for (count, is_read) in [(63, true), (511, true), (512, false), (5_000, false)] {
            let outcome = with_stack(64, || said(&high_form(around, count)));
            let is_so = if is_read { outcome.is_ok() } else { matches!(&outcome, Err(error) if error.message == TOO_HIGH) };
            assert!(is_so, "{count} times {}: {outcome:?}", around.0);
        }
    }
}

#[test]
fn a_high_form_has_an_error_with_its_path() {
    for (around, step) in [(AROUND[0], ".expr"), (AROUND[2], ".lhs"), (AROUND[3], ".args[0]"), (AROUND[5], ".param")] {
        let error = with_stack(2048, || said(&high_form(around, 512))).unwrap_err();
        assert_eq!((error.path, &*error.message), (format!("${}", step.repeat(512)), TOO_HIGH));
    }
}

#[test]
fn texts_of_any_depth_are_read_with_little_stack() {
    for (part, message) in [("[", "not JSON"), (r#"{"a":"#, "not JSON"), ("[[],", "not JSON"), (r#"{"expr":{"expr":"#, "not JSON")] {
        let text = part.repeat((1 << 20) / part.len());
        assert_eq!(with_stack(64, || said(&text)).unwrap_err().message, message);
    }
    let arrays = ["[".repeat(500_000), "]".repeat(500_000)].concat();
    assert_eq!(with_stack(64, || said(&arrays)).unwrap_err().to_string(), "$: expected an object");
    let members = ["{\"a\":".repeat(150_000), String::from("1"), "}".repeat(150_000)].concat();
    assert_eq!(with_stack(64, || said(&members)).unwrap_err().to_string(), "$.type: expected such a member");
}

fn hash_of(tree: &Expr) -> u64 {
    let mut hasher = DefaultHasher::new();
    tree.hash(&mut hasher);
    hasher.finish()
}

/// A tree of so many expressions of a kind above one another, for each kind that has children and each place of them.
fn high_trees(count: usize) -> impl Iterator<Item = Expr> {
    let kinds: [fn(Expr) -> Expr; 10] = [
        |expr| Expr::Paren(ParenExpr { expr: expr.into() }),
        |expr| Expr::Unary(UnaryExpr { expr: expr.into() }),
        |expr| Expr::Subquery(SubqueryExpr { expr: expr.into(), range: 1, step: None, offset: 0, at: None }),
        |expr| aggregate(expr, None),
        |expr| aggregate(expr, Some(Expr::from(1.0))),
        |expr| aggregate(Expr::from(1.0), Some(expr)),
        |expr| add(expr, Expr::from(1.0)),
        |expr| add(Expr::from(1.0), expr),
        |expr| Expr::call("abs", [expr]),
        |expr| Expr::call("label_join", [Expr::from(1.0), expr, Expr::from(1.0)]),
    ];
    kinds.into_iter().map(move |put_above| (0..count).fold(Expr::selector("a"), |expr, _| put_above(expr)))
}

fn aggregate(expr: Expr, param: Option<Expr>) -> Expr {
    let param = param.map(Child::from);
    Expr::Aggregate(AggregateExpr { op: String::from("topk"), expr: expr.into(), param, grouping: Vec::new(), without: false })
}

fn add(lhs: Expr, rhs: Expr) -> Expr {
    Expr::Binary(BinaryExpr { op: String::from("+"), lhs: lhs.into(), rhs: rhs.into(), return_bool: false, matching: None })
}

#[test]
fn a_tree_of_a_million_levels_is_dropped_with_little_stack() {
    for tree in high_trees(1_000_000) {
        with_stack(256, || drop(tree));
    }
}

/// A struct, a box and a vector of high trees, each by itself, and the first of them out of its enum.
#[test]
fn parts_of_a_high_tree_are_dropped_with_little_stack() {
    with_stack(256, || {
        for tree in high_trees(100_000) {
            let args = Children::from(vec![tree.clone(), Expr::from(1.0), tree.clone()]);
            drop(args.clone());
            drop(args.into_iter());
            let mut boxed = Child::from(tree.clone());
            drop(std::mem::replace(&mut *boxed, Expr::from(1.0)));
            match tree {
                Expr::Aggregate(AggregateExpr { expr, param, .. }) => drop((expr, param)),
                Expr::Binary(BinaryExpr { lhs, rhs, .. }) => drop((lhs, rhs)),
                Expr::Call(Call { args, .. }) => drop(args.into_inner()),
                Expr::Paren(it) => drop(it),
                other => drop(Box::new(other)),
            }
        }
    });
}

/// The text of the struct of an expression that has others below it.
fn text_of_node(tree: &Expr) -> String {
    match tree {
        Expr::Aggregate(it) => it.to_string(),
        Expr::Binary(it) => it.to_string(),
        Expr::Call(it) => it.to_string(),
        Expr::Paren(it) => it.to_string(),
        Expr::Subquery(it) => it.to_string(),
        Expr::Unary(it) => it.to_string(),
        leaf => panic!("{leaf} has nothing below it"),
    }
}

#[test]
fn what_is_done_with_a_high_tree_needs_little_stack() {
    for mut tree in high_trees(20_000) {
        with_stack(256, || {
            let mut copy = tree.clone();
            assert!(copy == tree);
            assert_eq!(hash_of(&copy), hash_of(&tree));
            assert_eq!(format!("{tree:#?}"), format!("Expr({})", tree.to_json()));
            let (mut seen, mut changed) = (Count(0), Count(0));
            assert_eq!((walk_expr(&mut seen, &tree), walk_expr_mut(&mut changed, &mut tree)), (Ok(true), Ok(true)));
            assert_eq!((seen.0, changed.0), (tree.walk().count(), tree.walk().count()));
            assert_eq!(Expr::from_json(&tree.to_json()).unwrap_err().message, TOO_HIGH);
            assert!(text_of_node(&tree).starts_with('<'));
            copy = copy.transform(&mut |it| match it {
                Expr::VectorSelector(_) => Expr::selector("b"),
                other => other,
            });
            assert!(copy != tree);
        });
    }
}

/// Trees that differ in one part at the lowest place differ, and so do trees with the same expressions at other places.
#[test]
fn trees_that_differ_are_not_equal() {
    let queries = [
        "a",
        "b",
        "a{b='c'}",
        "a offset 1m",
        "a @ 1",
        "a[1m]",
        "a[2m]",
        "1",
        "2",
        "'1'",
        "'2'",
        "-a",
        "(a)",
        "-(-a)",
        "(-a)",
        "a[1h:]",
        "a[1h:1m]",
        "a[2h:]",
        "a[1h:] @ 1",
        "a[1h:] offset 1m",
        "sum(a)",
        "min(a)",
        "sum by (b) (a)",
        "sum without (b) (a)",
        "topk(1, a)",
        "topk(2, a)",
        "bottomk(1, a)",
        "a + b",
        "b + a",
        "a - b",
        "a == b",
        "a == bool b",
        "a + on (c) b",
        "a + ignoring (c) b",
        "a + on (c) group_left (d) b",
        "a + b + c",
        "a + (b + c)",
        "time()",
        "abs(a)",
        "ceil(a)",
        "round(a)",
        "round(a, 1)",
        "round(a, 2)",
        "label_join(a, 'b', 'c')",
        "label_join(a, 'b', 'c', 'd')",
    ];
    let trees: Vec<Expr> =
        queries.iter().map(|query| format!("abs(-({query}))").parse().unwrap_or_else(|_| parse(query).unwrap())).collect();
    for (number, tree) in trees.iter().enumerate() {
        for (other_number, other) in trees.iter().enumerate() {
            assert_eq!(tree == other, number == other_number, "{tree} and {other}");
            assert_eq!(hash_of(tree) == hash_of(other), number == other_number, "{tree} and {other}");
        }
    }
}

struct Count(usize);

impl ExprVisitor for Count {
    type Error = ();

    fn pre_visit(&mut self, _: &Expr) -> Result<bool, ()> {
        self.0 += 1;
        Ok(true)
    }
}

impl ExprVisitorMut for Count {
    type Error = ();

    fn pre_visit(&mut self, expr: &mut Expr) -> Result<bool, ()> {
        ExprVisitor::pre_visit(self, expr)
    }
}

#[test]
fn a_tree_of_any_height_that_a_program_made_is_printed_or_taken_apart() {
    const COUNT: usize = 100_000;
    let high = |mut tree: Expr| {
        for number in 0..COUNT {
            tree = match number % 3 {
                0 => Expr::Paren(ParenExpr { expr: tree.into() }),
                1 => Expr::call("abs", [tree]),
                _ => Expr::Unary(UnaryExpr { expr: tree.into() }),
            };
        }
        tree
    };
    let tree = high(Expr::selector("a"));
    let unwrapped = with_stack(1400, || {
        set_max_tree(8 << 20);
        let error = print(&tree).unwrap_err();
        set_max_tree(4 << 20);
        assert_eq!(error.to_string(), "$: nested too deeply");
        assert!(matches!(error, Error::Node(fault) if fault.node(&tree).children().len() == 1));
        tree.transform(&mut |it| match it {
            Expr::Paren(ParenExpr { expr }) | Expr::Unary(UnaryExpr { expr }) => expr.into_inner(),
            Expr::Call(Call { args, .. }) => args.into_iter().next().expect("an argument"),
            other => other,
        })
    });
    assert_eq!(unwrapped, Expr::selector("a"));
}

/// Walks that end early leave the tree whole.
#[test]
fn a_walk_that_ends_leaves_the_tree_whole() {
    struct Ends(usize);
    impl ExprVisitorMut for Ends {
        type Error = usize;
        fn pre_visit(&mut self, _: &mut Expr) -> Result<bool, usize> {
            self.0 -= 1;
            if self.0 == 1 { Err(7) } else { Ok(self.0 > 0) }
        }
    }
    let tree: Expr = "topk(5, a + -b) / round(c, 2)".parse().unwrap();
    let mut copy = tree.clone();
    for most in 2..=tree.walk().count() {
        assert_eq!(walk_expr_mut(&mut Ends(most), &mut copy), Err(7));
        assert_eq!(copy, tree);
    }
    let panics = std::panic::AssertUnwindSafe(|| {
        struct Panics;
        impl ExprVisitorMut for Panics {
            type Error = ();
            fn pre_visit(&mut self, expr: &mut Expr) -> Result<bool, ()> {
                assert!(expr.as_selector().is_none(), "a selector");
                Ok(true)
            }
        }
        walk_expr_mut(&mut Panics, &mut copy)
    });
    assert!(std::panic::catch_unwind(panics).is_err());
    assert_eq!(copy, tree);
}

/// A form whose first object has so many bytes of members more.
fn with_members(bytes: usize) -> String {
    let members: Vec<String> = (0..bytes / 12).map(|number| format!(r#""m{number:06}":0"#)).collect();
    format!(r#"{{"type":"numberLiteral","val":"1",{}}}"#, members.join(","))
}

/// How long a function takes.
fn time<T>(function: impl FnOnce() -> T) -> (T, Duration) {
    let begun = Instant::now();
    (function(), begun.elapsed())
}

#[test]
fn many_members_are_read_quickly() {
    let (outcome, took) = time(|| said(&with_members(1 << 20)));
    assert_eq!(outcome.unwrap_err().to_string(), "$.m000000: unknown member");
    assert!(took < Duration::from_secs(10), "{took:?}");
    let twice = with_members(1 << 20).replace("m080000", "m000001");
    assert_eq!(said(&twice).unwrap_err().to_string(), "$.m000001: expected such a member once");
}

#[test]
fn large_forms_are_read_quickly() {
    let text = "a".repeat(1 << 20);
    let digits = "9".repeat(1 << 20);
    let up = r#"{"matchers":[],"name":"up","offset":0,"startOrEnd":null,"timestamp":null,"type":"vectorSelector"}"#;
    let time_call = r#""func":{"argTypes":[],"experimental":false,"name":"time","returnType":"scalar","variadic":0},"type":"call"}"#;
    let escapes = r#"\ud83e\udd80"#.repeat((1 << 20) / 12);
    for (form, is_form) in [
        (format!(r#"{{"type":"stringLiteral","val":"{text}"}}"#), true),
        (format!(r#"{{"type":"stringLiteral","val":"{escapes}"}}"#), true),
        (up.replace(":0", &format!(":{digits}")), false),
        (up.replace("[]", &format!("[{}0]", "0,".repeat(1 << 19))), false),
        (format!(r#"{{"args":[{}{ONE}],{time_call}"#, format!("{ONE},").repeat(30_000)), true),
        (format!(r#"{{"{text}":1}}"#), false),
        (format!("[{}0]", "{},".repeat(1 << 18)), false),
    ] {
        let (outcome, took) = time(|| said(&form));
        assert_eq!(outcome.is_ok(), is_form, "{:.60}", form);
        assert!(took < Duration::from_secs(10), "{took:?}: {:.60}", form);
    }
}

/// A fault at the top of a tree is found at a cost that grows with the tree, and not with the tree times its height.
#[test]
fn a_fault_above_much_is_found_quickly() {
    let args: Vec<Expr> = (0..4_000).map(|_| Expr::selector("a")).collect();
    let wide = Expr::call("label_join", args);
    let high = (0..50).fold(wide, |expr, _| Expr::Paren(ParenExpr { expr: expr.into() }));
    let tree = Expr::call("rate", [high]);
    let (outcome, took) = time(|| print(&tree));
    assert!(
        matches!(outcome, Err(Error::Node(fault)) if fault.path.ends_with(".expr.expr") && fault.node(&tree).children().len() == 4_000)
    );
    assert!(took < Duration::from_secs(10), "{took:?}");
}
