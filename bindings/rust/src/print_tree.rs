//! From a tree to its text.

use crate::node_faults::{first_without_text, node_at};
use crate::tree::Expr;
use crate::{Error, Layout, library};
use std::error;
use std::fmt;
use std::ops::Range;
use std::str::FromStr;

const TOO_DEEP: &str = "nested too deeply";

/// Why a tree has no text.
#[derive(Clone, Debug, PartialEq, Eq)]
pub struct NodeError {
    /// The part at fault in the JSON form, as `$.lhs.args[0]`; [`NodeError::node`] finds the expression.
    pub path: String,
    /// What is wrong there.
    pub message: String,
    /// What [`print_tree`](crate::print_tree()) says of the tree: `NotATree` where a part is none of a query, `Unfaithful` where the text
    /// would mean another tree, `TooLargeTree` where it is too long.
    pub cause: Box<Error>,
}

/// What kind of fault keeps a tree from having a text.
#[derive(Clone, Copy, Debug, PartialEq, Eq, Hash)]
#[non_exhaustive]
pub enum NodeFault {
    /// A call is of no function: the path ends with `.func.name`.
    UnknownFunction,
    /// The tree is higher than the library reads.
    TooDeep,
    /// Another part is none of a query, as an operator, a number, a pattern or a range of 0.
    NotATree,
    /// The text would mean another tree, or be none, as with an argument of a wrong type.
    Unfaithful,
    /// The form or the line of the tree is too long, or its patterns are too large.
    TooLarge,
}

impl NodeError {
    /// The kind of the fault.
    pub fn fault(&self) -> NodeFault {
        match &*self.cause {
            Error::Unfaithful(_) => NodeFault::Unfaithful,
            Error::TooLargeTree(_) => NodeFault::TooLarge,
            _ if self.message == TOO_DEEP => NodeFault::TooDeep,
            _ if self.path.ends_with(".func.name") => NodeFault::UnknownFunction,
            _ => NodeFault::NotATree,
        }
    }

    /// The expression of the tree at the path, or the last one on the way there.
    pub fn node<'a>(&self, tree: &'a Expr) -> &'a Expr {
        node_at(tree, &self.path)
    }
}

impl fmt::Display for NodeError {
    fn fmt(&self, f: &mut fmt::Formatter<'_>) -> fmt::Result {
        write!(f, "{}: {}", self.path, self.message)
    }
}

impl error::Error for NodeError {
    fn source(&self) -> Option<&(dyn error::Error + 'static)> {
        Some(&*self.cause)
    }
}

/// The tree of a query. Lengths of time are cut off to whole milliseconds, as in the JSON form.
///
/// # Errors
///
/// Those of [`json`](crate::json).
pub fn parse(query: &str) -> Result<Expr, Error> {
    let form = crate::json(query)?;
    Expr::from_json(&form).map_err(Error::Form)
}

/// The place of each node of the query's tree, its bytes, in the order of [`walk_expr`](crate::walk_expr). A sign before a number belongs to
/// the number, and a postfix such as `offset` to what it changes.
///
/// # Errors
///
/// Those of [`canonical`](crate::canonical).
pub fn places(query: &str) -> Result<Vec<Range<usize>>, Error> {
    let text = crate::text_of(library::places(query))?;
    let numbers: Vec<usize> = text.split(|it: char| !it.is_ascii_digit()).filter_map(|it| it.parse().ok()).collect();
    Ok(numbers.chunks_exact(2).map(|pair| pair[0]..pair[1]).collect())
}

/// The text of a tree on one line, in parentheses where the tree needs them. The library read what it printed again: it has this tree.
///
/// # Errors
///
/// `Node` where there is no such text; `OutOfMemory` and `SmallStack`.
pub fn print(tree: &Expr) -> Result<String, Error> {
    print_in_mode(tree, None)
}

/// The text of a tree, laid out as by [`format`](crate::format()).
///
/// # Errors
///
/// Those of [`print()`], and `LevelTooHigh`.
pub fn print_layout(tree: &Expr, layout: Layout) -> Result<String, Error> {
    print_in_mode(tree, Some(layout))
}

impl fmt::Display for Expr {
    /// What [`print()`] gives, or its error within `<` and `>`.
    fn fmt(&self, f: &mut fmt::Formatter<'_>) -> fmt::Result {
        match print(self) {
            Ok(line) => f.write_str(&line),
            Err(error) => write!(f, "<{error}>"),
        }
    }
}

impl FromStr for Expr {
    type Err = Error;

    fn from_str(query: &str) -> Result<Expr, Error> {
        parse(query)
    }
}

fn print_in_mode(tree: &Expr, layout: Option<Layout>) -> Result<String, Error> {
    let cause = match crate::print_tree(&tree.to_json(), true, layout) {
        Err(cause @ (Error::NotATree(_) | Error::Unfaithful(_) | Error::TooLargeTree(_))) => cause,
        other => return other,
    };
    let said = cause.to_string();
    let has_text = |expr: &Expr| crate::print_tree(&expr.to_json(), true, None).is_ok();
    let (path, message) = match (&cause, said.split_once(": ")) {
        (Error::NotATree(_), Some((path, message))) => (path.to_string(), message.to_string()),
        // (the form is JSON, but deeper than the library reads)
        (Error::NotATree(_), None) => (String::from("$"), TOO_DEEP.to_string()),
        (Error::Unfaithful(_), _) => (first_without_text(tree, has_text), said),
        _ => (String::from("$"), said),
    };
    Err(Error::Node(NodeError { path, message, cause: Box::new(cause) }))
}
