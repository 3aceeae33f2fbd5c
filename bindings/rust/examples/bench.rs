//! Nanoseconds a query of `check` and of `canonical`, of `parse`, and of `print` of its tree, for the queries of a file, one a line, those
//! without patterns and those with patterns apart: `bench FILE [RUNS]`. `bindings/bench.sh` runs it beside those of the other languages.

use promql_proved::{Error, Expr, canonical, check, parse, print};
use std::time::{Duration, Instant};
use std::{env, fs};

const TIMES: usize = 20;

fn has_pattern(query: &str) -> bool {
    query.contains("=~") || query.contains("!~")
}

fn pass<T>(call: fn(&T) -> Result<(), Error>, queries: &[T]) {
    for query in queries {
        call(query).expect("the query is accepted");
    }
}

fn time_of_run<T>(call: fn(&T) -> Result<(), Error>, queries: &[T]) -> Duration {
    let start = Instant::now();
    for _ in 0..TIMES {
        pass(call, queries);
    }
    start.elapsed()
}

/// The least nanoseconds a query of all runs.
fn measure<T>(call: fn(&T) -> Result<(), Error>, queries: &[T], runs: usize) -> u128 {
    let least = (0..runs).map(|_| time_of_run(call, queries)).min().unwrap_or_default();
    least.as_nanos() / (TIMES * queries.len()).max(1) as u128
}

fn main() {
    let words: Vec<String> = env::args().collect();
    let text = fs::read_to_string(&words[1]).expect("the file is read");
    let runs = words.get(2).map_or(60, |word| word.parse().expect("a number"));
    for (kind, with_patterns) in [("plain", false), ("patterns", true)] {
        let queries: Vec<&str> = text.lines().filter(|line| has_pattern(line) == with_patterns).collect();
        let trees: Vec<Expr> = queries.iter().map(|query| parse(query).expect("the query is accepted")).collect();
        println!("check {kind} {}", measure(|query| check(query), &queries, runs));
        println!("line {kind} {}", measure(|query| canonical(query).map(drop), &queries, runs));
        println!("tree {kind} {}", measure(|query| parse(query).map(drop), &queries, runs));
        println!("text {kind} {}", measure(|tree| print(tree).map(drop), &trees, runs));
    }
}
