//! What becomes an expression, a part of one, or an error.

use crate::child::{Child, Children};
use crate::tree::*;
use crate::{Error, FormError, NodeError};
use std::fmt;

/// The struct of each kind becomes an expression, and its text is that of the expression.
macro_rules! nodes {
    ($($kind:ident($node:ty)),* $(,)?) => {
        $(
            impl From<$node> for Expr {
                fn from(node: $node) -> Expr {
                    Expr::$kind(node)
                }
            }

            impl fmt::Display for $node {
                /// What `Display` of the expression shows.
                fn fmt(&self, f: &mut fmt::Formatter<'_>) -> fmt::Result {
                    Expr::from(self.clone()).fmt(f)
                }
            }
        )*
    };
}

nodes! {
    Aggregate(AggregateExpr),
    Unary(UnaryExpr),
    Binary(BinaryExpr),
    Paren(ParenExpr),
    Subquery(SubqueryExpr),
    NumberLiteral(NumberLiteral),
    StringLiteral(StringLiteral),
    VectorSelector(VectorSelector),
    MatrixSelector(MatrixSelector),
    Call(Call),
}

impl From<f64> for NumberLiteral {
    /// The number that `Display` shows of the value.
    fn from(value: f64) -> NumberLiteral {
        let val = match value {
            _ if value.is_infinite() => String::from(if value > 0.0 { "Inf" } else { "-Inf" }),
            _ if value == 0.0 => String::from("0"),
            _ => value.to_string(),
        };
        NumberLiteral { val }
    }
}

impl From<f64> for Expr {
    fn from(value: f64) -> Expr {
        Expr::NumberLiteral(value.into())
    }
}

impl From<String> for StringLiteral {
    /// The string of this text, which has no quotes.
    fn from(val: String) -> StringLiteral {
        StringLiteral { val }
    }
}

impl From<&str> for StringLiteral {
    /// The string of this text, which has no quotes.
    fn from(val: &str) -> StringLiteral {
        StringLiteral { val: val.to_string() }
    }
}

impl From<Child> for Expr {
    fn from(child: Child) -> Expr {
        child.into_inner()
    }
}

impl From<Children> for Vec<Expr> {
    fn from(children: Children) -> Vec<Expr> {
        children.into_inner()
    }
}

impl<const N: usize> From<[Expr; N]> for Children {
    fn from(exprs: [Expr; N]) -> Children {
        Children::from(Vec::from(exprs))
    }
}

impl From<Vec<Matcher>> for Matchers {
    /// Matchers that are in no group.
    fn from(matchers: Vec<Matcher>) -> Matchers {
        Matchers { matchers, or_matchers: Vec::new() }
    }
}

impl<const N: usize> From<[Matcher; N]> for Matchers {
    /// Matchers that are in no group.
    fn from(matchers: [Matcher; N]) -> Matchers {
        Matchers::from(Vec::from(matchers))
    }
}

impl From<NodeError> for Error {
    fn from(fault: NodeError) -> Error {
        Error::Node(fault)
    }
}

impl From<FormError> for Error {
    fn from(fault: FormError) -> Error {
        Error::Form(fault)
    }
}
