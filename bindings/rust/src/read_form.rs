//! From the JSON form to a tree. Each member has to be there, and no other.

use crate::json::{self, Value};
use crate::members::{Fault, Members, Read};
use crate::read_node::{BelowNode, Kind, Step, kind_of};
use crate::tree::*;
use crate::written_form;
use std::error;
use std::fmt;
use std::vec;

/// Why a text is no JSON form of a query.
#[derive(Clone, Debug, PartialEq, Eq)]
pub struct FormError {
    /// The first part at fault, as `$.lhs.args[0].range`.
    pub path: String,
    /// What was expected there.
    pub message: String,
}

impl fmt::Display for FormError {
    fn fmt(&self, f: &mut fmt::Formatter<'_>) -> fmt::Result {
        write!(f, "{}: {}", self.path, self.message)
    }
}

impl error::Error for FormError {}

impl Expr {
    /// The tree of a JSON form, as [`json`](crate::json) and [`Expr::to_json`] give it. Types of expressions, names and patterns are not
    /// looked at: [`print()`](crate::print) tells where they are wrong. At most [`MOST_HEIGHT`] nodes are above one another.
    ///
    /// # Errors
    ///
    /// `FormError` where the text is no JSON form of a query.
    pub fn from_json(form: &str) -> Result<Expr, FormError> {
        if let Some(expr) = written_form::read(form) {
            return Ok(expr);
        }
        read_any_form(form)
    }
}

/// Reads a form with members in any order, and with spaces.
fn read_any_form(form: &str) -> Result<Expr, FormError> {
    match json::read(form) {
        Some(json) => read_tree(json.value()),
        None => Err(FormError { path: String::from("$"), message: String::from("not JSON") }),
    }
}

/// The most nodes above one another of a tree that is read: no query has more.
pub const MOST_HEIGHT: usize = 512;

const TOO_HIGH: &str = "expected a tree of at most 512 nodes above one another";

/// A node whose children are being read.
struct Node<'a> {
    /// Where it is in the node above it.
    step: Step,
    kind: &'static Kind,
    members: Members<'a>,
    /// The forms of the children that are left, and the children that were read.
    left: vec::IntoIter<(Step, Value<'a>)>,
    children: Vec<Expr>,
}

/// Reads a tree without recursion: the nodes above the one that is read are in a list.
fn read_tree(form: Value<'_>) -> Result<Expr, FormError> {
    let mut nodes: Vec<Node<'_>> = Vec::new();
    let mut next = (Step::Root, form);
    loop {
        let (step, value) = next;
        if nodes.len() == MOST_HEIGHT {
            return Err(error_at(&nodes, &step, Fault::here(TOO_HIGH)));
        }
        match begin(step.clone(), value) {
            Ok(node) => nodes.push(node),
            Err(fault) => return Err(error_at(&nodes, &step, fault)),
        }
        next = match end_complete(&mut nodes)? {
            Progress::Left(step, value) => (step, value),
            Progress::Read(expr) => return Ok(expr),
        };
    }
}

/// What is to be read next, or the whole tree.
enum Progress<'a> {
    Left(Step, Value<'a>),
    Read(Expr),
}

/// Ends the nodes all of whose children were read, from the lowest on.
fn end_complete<'a>(nodes: &mut Vec<Node<'a>>) -> Result<Progress<'a>, FormError> {
    let mut child = None;
    while let Some(mut node) = nodes.pop() {
        node.children.extend(child.take());
        if let Some((step, value)) = node.left.next() {
            nodes.push(node);
            return Ok(Progress::Left(step, value));
        }
        let step = node.step.clone();
        child = Some(end(node).map_err(|fault| error_at(nodes, &step, fault))?);
    }
    Ok(Progress::Read(child.expect("the lowest node was read")))
}

fn begin(step: Step, value: Value<'_>) -> Read<Node<'_>> {
    let mut members = Members::of(value)?;
    let kind = kind_of(&mut members)?;
    let left = kind.take_children(&mut members)?;
    Ok(Node { step, kind, members, children: Vec::with_capacity(left.len()), left: left.into_iter() })
}

fn end(node: Node<'_>) -> Read<Expr> {
    let Node { kind, mut members, children, .. } = node;
    let expr = (kind.build)(&mut members, &mut BelowNode::of(children))?;
    members.end()?;
    Ok(expr)
}

/// The error of a fault in a node below these. Its path is made here, and no other is.
fn error_at(nodes: &[Node<'_>], step: &Step, fault: Fault) -> FormError {
    let mut path = String::from("$");
    let steps = nodes.iter().map(|node| &node.step).chain([step]);
    steps.for_each(|step| step.add_to(&mut path));
    path.push_str(&fault.path);
    FormError { path, message: fault.message }
}
