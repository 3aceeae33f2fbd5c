//! The expressions right below an expression.

use crate::tree::*;

impl Expr {
    /// The expressions right below: the parameter of an aggregation comes before what is aggregated.
    pub fn children(&self) -> Vec<&Expr> {
        (0..).map_while(|number| self.child(number)).collect()
    }

    /// The same, to be changed.
    pub fn children_mut(&mut self) -> Vec<&mut Expr> {
        self.iter_children_mut().collect()
    }

    /// An iterator over the expressions right below, in the order of [`Expr::children`].
    pub fn iter_children(&self) -> impl DoubleEndedIterator<Item = &Expr> + Clone {
        let (first, second, args): (Option<&Expr>, Option<&Expr>, &[Expr]) = match self {
            Expr::Aggregate(it) => (it.param.as_deref(), Some(&it.expr), &[]),
            Expr::Binary(it) => (Some(&it.lhs), Some(&it.rhs), &[]),
            Expr::Call(it) => (None, None, &it.args),
            Expr::Paren(ParenExpr { expr }) | Expr::Unary(UnaryExpr { expr }) => (Some(expr), None, &[]),
            Expr::Subquery(it) => (Some(&it.expr), None, &[]),
            Expr::NumberLiteral(_) | Expr::StringLiteral(_) | Expr::VectorSelector(_) | Expr::MatrixSelector(_) => (None, None, &[]),
        };
        first.into_iter().chain(second).chain(args)
    }

    /// The same, over expressions to be changed.
    pub fn iter_children_mut(&mut self) -> impl DoubleEndedIterator<Item = &mut Expr> {
        let (first, second, args): (Option<&mut Expr>, Option<&mut Expr>, &mut [Expr]) = match self {
            Expr::Aggregate(it) => (it.param.as_deref_mut(), Some(&mut it.expr), &mut []),
            Expr::Binary(it) => (Some(&mut it.lhs), Some(&mut it.rhs), &mut []),
            Expr::Call(it) => (None, None, &mut it.args),
            Expr::Paren(ParenExpr { expr }) | Expr::Unary(UnaryExpr { expr }) => (Some(expr), None, &mut []),
            Expr::Subquery(it) => (Some(&mut it.expr), None, &mut []),
            Expr::NumberLiteral(_) | Expr::StringLiteral(_) | Expr::VectorSelector(_) | Expr::MatrixSelector(_) => (None, None, &mut []),
        };
        first.into_iter().chain(second).chain(args)
    }
}
