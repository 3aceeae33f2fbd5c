//! Which expression of a tree is at fault.

use crate::function::ValueType;
use crate::tree::*;

/// The expression at a path of the JSON form, as `$.lhs.args[0].range`, or the last one on the way there.
pub fn node_at<'a>(tree: &'a Expr, path: &str) -> &'a Expr {
    let mut expr = tree;
    for step in path.split('.').skip(1) {
        match child_at(expr, step) {
            Some(child) => expr = child,
            None => break,
        }
    }
    expr
}

/// The child in this member of the JSON form, as `lhs` or `args[0]`.
fn child_at<'a>(expr: &'a Expr, step: &str) -> Option<&'a Expr> {
    match (expr, step) {
        (Expr::Aggregate(it), "param") => it.param.as_deref(),
        (Expr::Aggregate(AggregateExpr { expr, .. }), "expr")
        | (Expr::Paren(ParenExpr { expr }), "expr")
        | (Expr::Subquery(SubqueryExpr { expr, .. }), "expr")
        | (Expr::Unary(UnaryExpr { expr }), "expr") => Some(expr),
        (Expr::Binary(it), "lhs") => Some(&it.lhs),
        (Expr::Binary(it), "rhs") => Some(&it.rhs),
        (Expr::Call(it), _) => it.args.get(step.strip_prefix("args[")?.strip_suffix(']')?.parse::<usize>().ok()?),
        _ => None,
    }
}

/// The member of the JSON form that has the child of this number.
fn step_to(expr: &Expr, number: usize) -> String {
    match expr {
        Expr::Aggregate(it) if it.param.is_some() && number == 0 => String::from("param"),
        Expr::Binary(_) => String::from(if number == 0 { "lhs" } else { "rhs" }),
        Expr::Call(_) => format!("args[{number}]"),
        _ => String::from("expr"),
    }
}

/// An expression of a tree, with the place in the list of the one above it, and its number there.
struct Placed<'a> {
    expr: &'a Expr,
    above: Option<(usize, usize)>,
}

/// The expressions of a tree, in the order of a walk.
fn placed(tree: &Expr) -> Vec<Placed<'_>> {
    let mut found = Vec::new();
    let mut left = vec![Placed { expr: tree, above: None }];
    while let Some(it) = left.pop() {
        let children = it.expr.children().into_iter().enumerate();
        left.extend(children.map(|(number, expr)| Placed { expr, above: Some((found.len(), number)) }).rev());
        found.push(it);
    }
    found
}

/// The path of an expression of the list in the JSON form.
fn path_of(found: &[Placed<'_>], at: usize) -> String {
    let mut steps = Vec::new();
    let mut above = found[at].above;
    while let Some((parent, number)) = above {
        steps.push(step_to(found[parent].expr, number));
        above = found[parent].above;
    }
    steps.push(String::from("$"));
    steps.reverse();
    steps.join(".")
}

/// The path of the lowest expression that has no text, though all below it have one: that is where the fault is. Each expression is tried
/// once, over stand-ins for those below it, so that no part of the tree is printed again and again.
pub fn first_without_text(tree: &Expr, has_text: impl Fn(&Expr) -> bool) -> String {
    let found = placed(tree);
    let mut below: Vec<Below<'_>> = Vec::new();
    for (at, it) in found.iter().enumerate().rev() {
        // (those of the children are the last ones, the first child's at the end)
        let children: Vec<Below<'_>> = (0..it.expr.children().len()).filter_map(|_| below.pop()).collect();
        if !is_read_in_its_call(&found, it) && !has_text(&over_stand_ins(it.expr, &children)) {
            return path_of(&found, at);
        }
        below.push(Below { value_type: value_type(it.expr, &children), expr: it.expr });
    }
    String::from("$")
}

/// An expression below one that is tried, with its type.
struct Below<'a> {
    expr: &'a Expr,
    value_type: ValueType,
}

/// Whether this is the second argument of `info`, a selector that need not be a query by itself.
fn is_read_in_its_call(found: &[Placed<'_>], it: &Placed<'_>) -> bool {
    let is_second_of_info = |(parent, number): (usize, usize)| number == 1 && is_info(found[parent].expr);
    matches!(it.expr, Expr::VectorSelector(_)) && it.above.map_or(false, is_second_of_info)
}

fn is_info(expr: &Expr) -> bool {
    matches!(expr, Expr::Call(it) if it.name == "info")
}

fn value_type(expr: &Expr, children: &[Below<'_>]) -> ValueType {
    match expr {
        Expr::Binary(_) if children.iter().all(|it| it.value_type == ValueType::Scalar) => ValueType::Scalar,
        Expr::Aggregate(_) | Expr::Binary(_) | Expr::VectorSelector(_) => ValueType::Vector,
        Expr::Call(it) => it.function().map_or(ValueType::Vector, |function| function.return_type),
        Expr::MatrixSelector(_) | Expr::Subquery(_) => ValueType::Matrix,
        Expr::NumberLiteral(_) => ValueType::Scalar,
        Expr::StringLiteral(_) => ValueType::String,
        Expr::Paren(_) | Expr::Unary(_) => children[0].value_type,
    }
}

/// A small expression of the same type; of a literal the literal, since its value may matter.
fn stand_in(it: &Below<'_>) -> Expr {
    match (it.expr, it.value_type) {
        (Expr::NumberLiteral(_) | Expr::StringLiteral(_), _) => it.expr.clone(),
        (_, ValueType::Matrix) => {
            let vs = VectorSelector { name: Some(String::from("a")), ..VectorSelector::default() };
            Expr::MatrixSelector(MatrixSelector { vs, range: 1, mode: RangeMode::Plain })
        }
        (_, ValueType::Scalar) => Expr::call("time", []),
        (_, ValueType::String) => Expr::StringLiteral(StringLiteral { val: String::new() }),
        (_, ValueType::Vector) => Expr::selector("a"),
    }
}

/// The same expression over stand-ins for its children.
fn over_stand_ins(expr: &Expr, children: &[Below<'_>]) -> Expr {
    let is_kept = |number, arg: &Expr| number == 1 && is_info(expr) && matches!(arg, Expr::VectorSelector(_));
    let numbered = children.iter().enumerate();
    let mut made = numbered.map(|(number, it)| if is_kept(number, it.expr) { it.expr.clone() } else { stand_in(it) });
    expr.over(|| made.next().expect("each child has a stand-in"))
}
