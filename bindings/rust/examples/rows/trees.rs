//! Trees of the rows, as they are and changed at random (`bindings/trees.py` says more).

use crate::random::Random;
use promql_proved::{Error, Expr, MatchOp, Matcher, VectorMatching, canonical, json, parse, print};
use std::collections::BTreeMap;
use std::process;

/// How deep arrays and objects are that the library reads.
const MOST_DEPTH: usize = 127;

/// Counts what is checked, and why trees are not printed.
#[derive(Default)]
struct Report {
    passed: usize,
    failed: usize,
    reasons: BTreeMap<&'static str, usize>,
}

impl Report {
    fn check(&mut self, is_so: bool, message: impl Fn() -> String) {
        if is_so {
            self.passed += 1;
            return;
        }
        self.failed += 1;
        if self.failed <= 20 {
            println!("FAILED {}", message());
        }
    }

    fn reason(&mut self, reason: &'static str) {
        *self.reasons.entry(reason).or_default() += 1;
    }

    fn print(&self) {
        for (reason, count) in &self.reasons {
            println!("{reason}: {count}");
        }
        println!("{} passed, {} failed", self.passed, self.failed);
        if self.failed > 0 {
            process::exit(1);
        }
    }
}

/// How deep the arrays and objects of a form are.
fn depth(form: &str) -> usize {
    let (mut deepest, mut now, mut in_text, mut is_escaped) = (0, 0_usize, false, false);
    for sign in form.bytes() {
        match sign {
            _ if is_escaped => is_escaped = false,
            b'\\' => is_escaped = true,
            b'"' => in_text = !in_text,
            b'{' | b'[' if !in_text => now += 1,
            b'}' | b']' if !in_text => now -= 1,
            _ => {}
        }
        deepest = deepest.max(now);
    }
    deepest
}

/// Checks that the form of each query, as a tree, gives that form again, and that the tree prints as the canonical line.
pub fn trees(queries: &[&str]) {
    let mut report = Report::default();
    for query in queries {
        let form = match json(query) {
            Err(Error::NumberTooWide) => continue,
            form => form.expect("a row is accepted"),
        };
        let tree = Expr::from_json(&form).expect("the library's form is one");
        let again = tree.to_json();
        report.check(again == form, || format!("another form: {query}: {again}"));
        check_line(&mut report, query, &form, &tree);
    }
    report.print();
}

fn check_line(report: &mut Report, query: &str, form: &str, tree: &Expr) {
    let line = print(tree);
    if line == canonical(query) {
        report.passed += 1;
        return;
    }
    let is_cut = match &line {
        Ok(line) => json(line).as_deref() == Ok(form),
        Err(_) => form.contains("\"range\":0,"),
    };
    if is_cut {
        report.reason("a length of time is below a millisecond");
    } else if line.is_err() && depth(form) >= MOST_DEPTH {
        report.reason("a tree is deeper than the library reads");
    } else {
        return report.check(false, || format!("another line: {query}: {line:?}"));
    }
    report.passed += 1;
}

/// The tree without what means nothing: parentheses, the order of matchers, a matching that says nothing.
fn normal(tree: Expr) -> Expr {
    tree.transform(&mut |mut expr| {
        if let Some(selector) = expr.as_selector_mut() {
            let key = |it: &Matcher| format!("{it:?}");
            selector.matchers.matchers.sort_by_key(key);
            selector.matchers.or_matchers.iter_mut().for_each(|group| group.sort_by_key(key));
        }
        match expr {
            Expr::Paren(it) => it.expr.into_inner(),
            Expr::Binary(mut it) => {
                it.matching = it.matching.filter(|matching| *matching != VectorMatching::default());
                Expr::Binary(it)
            }
            other => other,
        }
    })
}

/// The expression of this number in a walk.
fn node_mut(tree: &mut Expr, number: usize) -> &mut Expr {
    if number == 0 {
        return tree;
    }
    let mut first = 1;
    for child in tree.children_mut() {
        let count = child.walk().count();
        if number < first + count {
            return node_mut(child, number - first);
        }
        first += count;
    }
    panic!("no expression {number}")
}

/// Changes a tree in one place.
fn change_at_random(random: &mut Random, tree: &mut Expr, other: &Expr) {
    let count = tree.walk().count();
    for _ in 0..20 {
        let number = random.next(count);
        let node = node_mut(tree, number);
        let is_likely = random.next(5) < 3;
        match node {
            Expr::VectorSelector(_) | Expr::MatrixSelector(_) if is_likely => {
                let op = [MatchOp::Equal, MatchOp::NotEqual, MatchOp::Re, MatchOp::NotRe][random.next(4)];
                let matcher = Matcher::new(op, ["a", "b", "c"][random.next(3)], ["", "x", "é|.*", "("][random.next(4)]);
                return node.as_selector_mut().expect("a selector").matchers.add(&matcher);
            }
            Expr::Binary(it) if is_likely => return std::mem::swap(&mut it.lhs, &mut it.rhs),
            _ if random.next(5) == 0 => {
                let place = random.next(other.walk().count());
                *node = other.walk().nth(place).expect("an expression").clone();
                return;
            }
            _ => {}
        }
    }
}

/// Checks that trees which are changed at random print a text that reads back as the tree, or tell the expression at fault.
pub fn changed(queries: &[&str], count: usize, seed: u64) {
    let (mut report, mut random) = (Report::default(), Random::new(seed));
    let is_low = |query: &&&str| json(query).map_or(false, |form| depth(&form) < 60);
    let queries: Vec<&&str> = queries.iter().filter(is_low).collect();
    for _ in 0..count {
        let [mut tree, other] = [(); 2].map(|()| parse(queries[random.next(queries.len())]).expect("a row has a tree"));
        change_at_random(&mut random, &mut tree, &other);
        report.check(Expr::from_json(&tree.to_json()).as_ref() == Ok(&tree), || format!("another form: {tree:?}"));
        check_changed(&mut report, tree);
    }
    report.print();
}

fn check_changed(report: &mut Report, tree: Expr) {
    match print(&tree) {
        Ok(line) => {
            report.reason("printed");
            let again = parse(&line).map(normal);
            let tree = normal(tree);
            report.check(again.as_ref() == Ok(&tree), || format!("read otherwise: {line}: {tree:?}"));
        }
        Err(Error::Node(fault)) => {
            report.reason("not printed, with the reason");
            let names_node = fault.path.starts_with('$') && !fault.message.is_empty();
            let is_in_tree = tree.walk().any(|expr| std::ptr::eq(expr, fault.node(&tree)));
            report.check(names_node && is_in_tree, || format!("no node: {fault}"));
        }
        Err(error) => report.check(false, || format!("{error}: {tree:?}")),
    }
}
