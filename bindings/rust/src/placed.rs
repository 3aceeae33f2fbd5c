//! Trees with the places of their expressions.

use crate::tree::Expr;
use crate::{Error, parse, places};
use std::ops::Range;

/// A tree with the place of each expression in the query that it was read from, as [`parse_placed`] gives it.
///
/// Two are equal where both their trees and the places are. The trees alone are equal where the queries differ in nothing but spelling:
///
/// ```
/// # use promql_proved::parse_placed;
/// let (one, other) = (parse_placed("a+b")?, parse_placed("a + b")?);
/// assert!(one != other && one.expr == other.expr);
/// # Ok::<(), promql_proved::Error>(())
/// ```
#[derive(Clone, Debug, PartialEq, Eq, Hash)]
pub struct PlacedExpr {
    /// The tree.
    pub expr: Expr,
    /// The bytes of each expression, in the order of [`Expr::walk`], as [`places`] gives them. A tree that is changed has other ones.
    pub places: Vec<Range<usize>>,
}

impl PlacedExpr {
    /// Each expression with its place, in the order of [`Expr::walk`].
    pub fn walk(&self) -> impl Iterator<Item = (&Expr, Range<usize>)> {
        self.expr.walk().zip(self.places.iter().cloned())
    }
}

/// The tree of a query, with the place of each expression.
///
/// # Errors
///
/// Those of [`parse`].
pub fn parse_placed(query: &str) -> Result<PlacedExpr, Error> {
    Ok(PlacedExpr { expr: parse(query)?, places: places(query)? })
}
