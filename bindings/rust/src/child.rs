//! The expressions below an expression: what drops them without recursion.

use crate::tree::Expr;
use std::fmt;
use std::iter::FromIterator;
use std::mem;
use std::ops::{Deref, DerefMut};
use std::{slice, vec};

/// An expression below another: a box that drops trees of any height without recursion.
///
/// It is a type of its own since an enum or a struct with a `Drop` can't be taken apart by a pattern, and those of a tree can.
/// [`Child::into_inner`] gives what `*` gives of a `Box`.
///
/// ```
/// # use promql_proved::{Expr, ParenExpr};
/// let expr = Expr::Paren(ParenExpr { expr: Expr::selector("up").into() });
/// let inside = match expr {
///     Expr::Paren(ParenExpr { expr }) => expr.into_inner(),
///     other => other,
/// };
/// assert_eq!(inside, Expr::selector("up"));
/// ```
#[derive(Clone, PartialEq, Eq, Hash)]
pub struct Child(Box<Expr>);

impl Child {
    /// Puts an expression into a box.
    pub fn new(expr: Expr) -> Child {
        Child(Box::new(expr))
    }

    /// The expression.
    pub fn into_inner(mut self) -> Expr {
        self.0.take()
    }
}

impl Drop for Child {
    fn drop(&mut self) {
        if has_grandchild(&self.0) {
            drop_all(vec![self.0.take()]);
        }
    }
}

/// Whether an expression has children that have children. One that has none is dropped with no more than its own fields.
fn has_grandchild(expr: &Expr) -> bool {
    (0..).map_while(|number| expr.child(number)).any(has_child)
}

fn has_child(expr: &Expr) -> bool {
    expr.child(0).is_some()
}

/// Drops expressions. The children of each that have children are taken out of it before.
fn drop_all(mut left: Vec<Expr>) {
    while let Some(mut expr) = left.pop() {
        let mut number = 0;
        while let Some(child) = expr.child_mut(number) {
            if has_child(child) {
                left.push(child.take());
            }
            number += 1;
        }
    }
}

impl From<Expr> for Child {
    fn from(expr: Expr) -> Child {
        Child::new(expr)
    }
}

impl From<Box<Expr>> for Child {
    fn from(expr: Box<Expr>) -> Child {
        Child(expr)
    }
}

impl Deref for Child {
    type Target = Expr;

    fn deref(&self) -> &Expr {
        &self.0
    }
}

impl DerefMut for Child {
    fn deref_mut(&mut self) -> &mut Expr {
        &mut self.0
    }
}

impl fmt::Debug for Child {
    fn fmt(&self, f: &mut fmt::Formatter<'_>) -> fmt::Result {
        self.0.fmt(f)
    }
}

/// The arguments of a call: a vector that drops trees of any height without recursion.
#[derive(Clone, Default, PartialEq, Eq, Hash)]
pub struct Children(Vec<Expr>);

impl Children {
    /// The expressions.
    pub fn into_inner(mut self) -> Vec<Expr> {
        mem::take(&mut self.0)
    }
}

impl Drop for Children {
    fn drop(&mut self) {
        if self.0.iter().any(has_grandchild) {
            drop_all(mem::take(&mut self.0));
        }
    }
}

impl From<Vec<Expr>> for Children {
    fn from(exprs: Vec<Expr>) -> Children {
        Children(exprs)
    }
}

impl FromIterator<Expr> for Children {
    fn from_iter<I: IntoIterator<Item = Expr>>(exprs: I) -> Children {
        Children(exprs.into_iter().collect())
    }
}

impl IntoIterator for Children {
    type Item = Expr;
    type IntoIter = vec::IntoIter<Expr>;

    fn into_iter(self) -> vec::IntoIter<Expr> {
        self.into_inner().into_iter()
    }
}

impl<'a> IntoIterator for &'a Children {
    type Item = &'a Expr;
    type IntoIter = slice::Iter<'a, Expr>;

    fn into_iter(self) -> slice::Iter<'a, Expr> {
        self.0.iter()
    }
}

impl<'a> IntoIterator for &'a mut Children {
    type Item = &'a mut Expr;
    type IntoIter = slice::IterMut<'a, Expr>;

    fn into_iter(self) -> slice::IterMut<'a, Expr> {
        self.0.iter_mut()
    }
}

impl Deref for Children {
    type Target = Vec<Expr>;

    fn deref(&self) -> &Vec<Expr> {
        &self.0
    }
}

impl DerefMut for Children {
    fn deref_mut(&mut self) -> &mut Vec<Expr> {
        &mut self.0
    }
}

impl fmt::Debug for Children {
    fn fmt(&self, f: &mut fmt::Formatter<'_>) -> fmt::Result {
        self.0.fmt(f)
    }
}
