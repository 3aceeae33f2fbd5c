//! Trees by serde_json, as texts and as values.

use promql_proved::{Expr, json, parse};
use promql_proved_serde::Tree;

const QUERIES: [&str; 7] = [
    "1",
    "'é\"\\n\u{1f980}'",
    "-(foo{a='1' or b!~'2'} offset -5m)",
    "sum by (job) (rate(http_requests_total{code=~'5..'}[5m])) / on (job) group_left (x) fill (1) up",
    "max_over_time(a[1h:5m] @ end()) and max_over_time(b[5m:] @ -1.5)",
    "rate(h[213503982334d14h25m51s615ms] anchored)",
    "quantile without (a) (0.9, label_replace(a, 'b', '$1', 'c', 'd.*'))",
];

#[test]
fn trees_are_written_and_read() {
    for query in QUERIES {
        let tree = Tree(parse(query).unwrap());
        let form: serde_json::Value = serde_json::from_str(&json(query).unwrap()).unwrap();
        assert_eq!(serde_json::to_value(&tree).unwrap(), form);
        assert_eq!(serde_json::from_value::<Tree>(form).unwrap(), tree);
        assert_eq!(serde_json::from_str::<Tree>(&serde_json::to_string(&tree).unwrap()).unwrap(), tree);
    }
}

#[test]
fn deep_trees_are_written() {
    let query = ["(".repeat(510), String::from("a"), ")".repeat(510)].concat();
    let tree = Tree(parse(&query).unwrap());
    assert_eq!(serde_json::to_string(&tree).unwrap().len(), json(&query).unwrap().len());
}

/// The deepest tree of a query, in threads with little stack and with what a call needs.
#[test]
fn deep_trees_are_written_or_an_error_says_why() {
    let query = ["abs(".repeat(511), String::from("a"), ")".repeat(511)].concat();
    let (tree, form) = (Tree(parse(&query).unwrap()), json(&query).unwrap());
    for kib in [64, 256, 1024, 1290, 1310, 1330, 1536, 2048] {
        let written = std::thread::scope(|scope| {
            let builder = std::thread::Builder::new().stack_size(kib * 1024);
            builder.spawn_scoped(scope, || serde_json::to_string(&tree)).unwrap().join().unwrap()
        });
        match written {
            Ok(text) => assert_eq!(text.len(), form.len(), "{kib}"),
            Err(error) => assert!(kib < 1536 && error.to_string().ends_with("less than 1.25 MiB of stack left"), "{kib}: {error}"),
        }
    }
}

#[test]
fn other_values_are_faults() {
    let fault = serde_json::from_str::<Tree>(r#"{"type":"parenExpr","expr":{"type":"numberLiteral"}}"#).unwrap_err();
    assert!(fault.to_string().contains("$.expr.val: expected such a member"), "{fault}");
    let tree = Tree(Expr::Subquery(promql_proved::SubqueryExpr {
        expr: Expr::selector("a").into(),
        range: 1,
        step: None,
        offset: i128::from(u64::MAX) + 1,
        at: None,
    }));
    assert!(serde_json::to_string(&tree).unwrap_err().to_string().starts_with("$.offset: "));
}
