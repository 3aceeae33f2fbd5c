//! Changes the queries on standard input, one a line: each selector gets a matcher of a label, a metric gets another name, and all is summed
//! by a label. Prints for each query the metrics that it names, and the changed query, or `not changed`.
//!
//!     change_queries LABEL VALUE OLD NEW BY
//!
//!     $ echo 'rate(foo[5m]) / bar' | change_queries tenant team-a foo foo_total job
//!     bar foo: sum by (job) (rate(foo_total{tenant="team-a"}[5m]) / bar{tenant="team-a"})

use promql_proved::{Error, Expr, ExprVisitorMut, MatchOp, Matcher, parse, print, walk_expr_mut};
use std::collections::BTreeSet;
use std::convert::Infallible;
use std::env;
use std::io::{self, BufRead};
use std::process::ExitCode;

/// What is done to each selector.
struct Change<'a> {
    matcher: Matcher,
    old: &'a str,
    new: &'a str,
}

impl ExprVisitorMut for Change<'_> {
    type Error = Infallible;

    fn pre_visit(&mut self, expr: &mut Expr) -> Result<bool, Infallible> {
        if let Some(selector) = expr.as_selector_mut() {
            selector.matchers.add(&self.matcher);
            if selector.name.as_deref() == Some(self.old) {
                selector.name = Some(self.new.to_string());
            }
        }
        Ok(true)
    }
}

/// The names before braces of a query, each once and in order, and the changed query.
fn change(query: &str, change: &mut Change<'_>, by: &str) -> Result<String, Error> {
    let mut expr = parse(query)?;
    let names: BTreeSet<String> = expr.walk().filter_map(|it| it.as_selector()?.name.clone()).collect();
    let names: Vec<String> = names.into_iter().collect();
    match walk_expr_mut(change, &mut expr) {
        Ok(_) => {}
        Err(never) => match never {},
    }
    let line = print(&Expr::aggregate_by("sum", &[by], expr))?;
    Ok(format!("{}: {line}", names.join(" ")))
}

fn main() -> ExitCode {
    let words: Vec<String> = env::args().skip(1).collect();
    let (mut wanted, by) = match &words[..] {
        [label, value, old, new, by] => (Change { matcher: Matcher::new(MatchOp::Equal, label, value), old, new }, by),
        _ => {
            eprintln!("usage: change_queries LABEL VALUE OLD NEW BY");
            return ExitCode::from(64);
        }
    };
    let mut status = ExitCode::SUCCESS;
    for line in io::stdin().lock().lines() {
        let query = line.expect("standard input is UTF-8");
        match change(&query, &mut wanted, by) {
            Ok(changed) => println!("{changed}"),
            Err(error) => {
                println!("not changed");
                eprintln!("{error}");
                status = ExitCode::FAILURE;
            }
        }
    }
    status
}
