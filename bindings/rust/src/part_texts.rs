//! The texts of matchers and modifiers. The library prints whole queries, so each part of one is printed in an expression that has it, and
//! is what remains without the rest.

use crate::print;
use crate::tree::*;
use std::fmt;

impl fmt::Display for Matcher {
    /// The matcher as it is within braces, as `job="api"`, or the error of [`print()`] within `<` and `>`: that of a selector with the
    /// matcher.
    fn fmt(&self, f: &mut fmt::Formatter<'_>) -> fmt::Result {
        if self.name == "__name__" {
            // (no name can be before the braces, and a matcher that takes any value needs another one beside it)
            let matchers = [self.clone(), Matcher::new(MatchOp::Equal, "a", "a")].into();
            return write_between(f, "{", VectorSelector { matchers, ..VectorSelector::default() }, ",a=\"a\"}");
        }
        write_between(f, "a{", VectorSelector { matchers: [self.clone()].into(), ..named_a() }, "}")
    }
}

impl fmt::Display for AtModifier {
    /// The time with the sign before it, as `@ end()`.
    fn fmt(&self, f: &mut fmt::Formatter<'_>) -> fmt::Result {
        write_between(f, "a", VectorSelector { at: Some(*self), ..named_a() }, "")
    }
}

impl fmt::Display for VectorMatching {
    /// What is between an operator and its right side, as `on (job) group_left (env)`, which may be empty, or the error of [`print()`] within
    /// `<` and `>`: that of a binary expression with the matching.
    fn fmt(&self, f: &mut fmt::Formatter<'_>) -> fmt::Result {
        let op = if self.card == VectorMatchCardinality::ManyToMany { "and" } else { "+" };
        let side = || Expr::from(named_a()).into();
        let matching = Some(self.clone());
        let binary = BinaryExpr { op: op.to_string(), lhs: side(), rhs: side(), return_bool: false, matching };
        write_between(f, &format!("a {op}"), binary, "a")
    }
}

impl fmt::Display for MatchOp {
    fn fmt(&self, f: &mut fmt::Formatter<'_>) -> fmt::Result {
        f.write_str(match self {
            MatchOp::Equal => "=",
            MatchOp::NotEqual => "!=",
            MatchOp::Re => "=~",
            MatchOp::NotRe => "!~",
        })
    }
}

impl fmt::Display for RangeMode {
    /// The word, which is empty for the plain mode.
    fn fmt(&self, f: &mut fmt::Formatter<'_>) -> fmt::Result {
        f.write_str(match self {
            RangeMode::Plain => "",
            RangeMode::Smoothed => "smoothed",
            RangeMode::Anchored => "anchored",
        })
    }
}

fn named_a() -> VectorSelector {
    VectorSelector { name: Some(String::from("a")), ..VectorSelector::default() }
}

/// Writes what the line of an expression has between its beginning and its end, without spaces around it, or why it has none.
fn write_between(f: &mut fmt::Formatter<'_>, before: &str, node: impl Into<Expr>, after: &str) -> fmt::Result {
    match print(&node.into()) {
        Ok(line) => {
            let rest = line.strip_prefix(before).unwrap_or(&line);
            f.write_str(rest.strip_suffix(after).unwrap_or(rest).trim())
        }
        Err(error) => write!(f, "<{error}>"),
    }
}
