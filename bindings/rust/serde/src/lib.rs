//! Trees of `promql-proved`, read and written by serde in their JSON form, in any format that says of itself what a value is.
//!
//! [`Tree`] is an expression with `Serialize` and `Deserialize`. In a struct of your own
//! `#[serde(with = "promql_proved_serde")]` does the same for a field of the type `Expr`.
//!
//! ```
//! use promql_proved_serde::Tree;
//! let tree: Tree = serde_json::from_str(r#"{"type":"numberLiteral","val":"1"}"#)?;
//! assert_eq!(serde_json::to_string(&tree)?, tree.0.to_json());
//! # Ok::<(), serde_json::Error>(())
//! ```

use promql_proved::{Expr, ExprVisitor, check, walk_expr};
use serde::de::{Deserialize, Deserializer, Error as _};
use serde::ser::{Error as _, Serialize, Serializer};
use serde_json::Value;
use std::convert::Infallible;

/// An expression with `Serialize` and `Deserialize`.
#[derive(Clone, Debug, PartialEq, Eq, Hash)]
pub struct Tree(pub Expr);

impl Serialize for Tree {
    fn serialize<S: Serializer>(&self, serializer: S) -> Result<S::Ok, S::Error> {
        serialize(&self.0, serializer)
    }
}

impl<'de> Deserialize<'de> for Tree {
    fn deserialize<D: Deserializer<'de>>(deserializer: D) -> Result<Tree, D::Error> {
        deserialize(deserializer).map(Tree)
    }
}

/// Writes an expression in its JSON form.
///
/// # Errors
///
/// Those of the serializer, and those of `Expr::from_json`: a number of milliseconds is below -2^63 or above 2^64 - 1, or more than 512
/// nodes are above one another. Also where more than 64 are, and the thread has less than 1.25 MiB of stack left.
pub fn serialize<S: Serializer>(expr: &Expr, serializer: S) -> Result<S::Ok, S::Error> {
    // (a number that is too wide would be rounded)
    Expr::from_json(&expr.to_json()).map_err(S::Error::custom)?;
    if height(expr) > SMALL_HEIGHT {
        // (any call of the library looks at the stack)
        check("1").map_err(S::Error::custom)?;
    }
    value_of(expr).map_err(S::Error::custom)?.serialize(serializer)
}

/// The nodes above one another from which on a thread has to have the stack of a call of the library: a value is written and dropped by
/// recursion.
const SMALL_HEIGHT: usize = 64;

/// How many nodes of a tree are above one another at most.
fn height(expr: &Expr) -> usize {
    let mut height = Height::default();
    // (neither `Ok(false)` nor an error ends it)
    let _ = walk_expr(&mut height, expr);
    height.most
}

#[derive(Default)]
struct Height {
    now: usize,
    most: usize,
}

impl ExprVisitor for Height {
    type Error = Infallible;

    fn pre_visit(&mut self, _: &Expr) -> Result<bool, Infallible> {
        self.now += 1;
        self.most = self.most.max(self.now);
        Ok(true)
    }

    fn post_visit(&mut self, _: &Expr) -> Result<bool, Infallible> {
        self.now -= 1;
        Ok(true)
    }
}

/// The JSON form as a value. It is made from the leaves up, since a reader of the whole form would need more stack than all else.
fn value_of(expr: &Expr) -> serde_json::Result<Value> {
    let mut made: Vec<Value> = Vec::new();
    let mut outcome = Ok(());
    expr.clone().transform(&mut |node| {
        // (its children were made before, and what is in their places is small)
        let children = made.split_off(made.len() - node.children().len());
        match serde_json::from_str(&node.to_json()) {
            Ok(form) => made.push(with_children(form, &node, children)),
            Err(error) => {
                outcome = Err(error);
                made.push(Value::Null);
            }
        }
        Expr::from(0.0)
    });
    outcome.map(|()| made.pop().unwrap_or_default())
}

/// The form of a node, with the forms of its children in their places.
fn with_children(mut form: Value, node: &Expr, children: Vec<Value>) -> Value {
    let mut children = children.into_iter();
    let names: &[&str] = match node {
        Expr::Aggregate(it) if it.param.is_some() => &["param", "expr"],
        Expr::Binary(_) => &["lhs", "rhs"],
        Expr::Call(_) => {
            form["args"] = Value::Array(children.collect());
            return form;
        }
        Expr::Aggregate(_) | Expr::Paren(_) | Expr::Subquery(_) | Expr::Unary(_) => &["expr"],
        _ => &[],
    };
    for (name, child) in names.iter().zip(&mut children) {
        form[*name] = child;
    }
    form
}

/// Reads an expression from its JSON form.
///
/// # Errors
///
/// Those of the deserializer, and those of `Expr::from_json`, with the path of the first part at fault. A form that is deeper than the
/// deserializer reads is an error of it: `serde_json` reads 127 arrays and objects within one another, unless it is told otherwise.
pub fn deserialize<'de, D: Deserializer<'de>>(deserializer: D) -> Result<Expr, D::Error> {
    let form = Value::deserialize(deserializer)?;
    Expr::from_json(&form.to_string()).map_err(D::Error::custom)
}
