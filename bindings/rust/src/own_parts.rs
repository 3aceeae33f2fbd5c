//! Comparing and hashing trees: node by node, without recursion.

use crate::tree::*;
use std::hash::{Hash, Hasher};

/// What an expression has beside those below it, and how many these are.
#[derive(PartialEq, Hash)]
enum OwnParts<'a> {
    Aggregate { op: &'a str, has_param: bool, grouping: &'a [String], without: bool },
    Unary,
    Binary { op: &'a str, return_bool: bool, matching: &'a Option<VectorMatching> },
    Paren,
    Subquery { range: u64, step: Option<u64>, offset: i128, at: Option<AtModifier> },
    NumberLiteral(&'a NumberLiteral),
    StringLiteral(&'a StringLiteral),
    VectorSelector(&'a VectorSelector),
    MatrixSelector(&'a MatrixSelector),
    Call { name: &'a str, count: usize },
}

/// The own parts of an expression. The patterns name each field, so that none is forgotten.
fn own_parts(expr: &Expr) -> OwnParts<'_> {
    match expr {
        Expr::Aggregate(AggregateExpr { op, expr: _, param, grouping, without }) => {
            OwnParts::Aggregate { op, has_param: param.is_some(), grouping, without: *without }
        }
        Expr::Unary(UnaryExpr { expr: _ }) => OwnParts::Unary,
        Expr::Binary(BinaryExpr { op, lhs: _, rhs: _, return_bool, matching }) => {
            OwnParts::Binary { op, return_bool: *return_bool, matching }
        }
        Expr::Paren(ParenExpr { expr: _ }) => OwnParts::Paren,
        &Expr::Subquery(SubqueryExpr { expr: _, range, step, offset, at }) => OwnParts::Subquery { range, step, offset, at },
        Expr::NumberLiteral(it) => OwnParts::NumberLiteral(it),
        Expr::StringLiteral(it) => OwnParts::StringLiteral(it),
        Expr::VectorSelector(it) => OwnParts::VectorSelector(it),
        Expr::MatrixSelector(it) => OwnParts::MatrixSelector(it),
        Expr::Call(Call { name, args }) => OwnParts::Call { name, count: args.len() },
    }
}

impl PartialEq for Expr {
    fn eq(&self, other: &Expr) -> bool {
        self.walk().map(own_parts).eq(other.walk().map(own_parts))
    }
}

impl Eq for Expr {}

impl Hash for Expr {
    fn hash<H: Hasher>(&self, state: &mut H) {
        self.walk().for_each(|node| own_parts(node).hash(state));
    }
}
