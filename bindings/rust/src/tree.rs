//! The nodes of a tree.

use crate::child::{Child, Children};
use crate::function::{Function, get_function};
use std::fmt;
use std::mem;

/// An expression of a query. The names are those of the crate `promql-parser`.
///
/// [`parse`](crate::parse) and `FromStr` read one, [`print()`](crate::print) and `Display` print it, and [`Expr::to_json`] and
/// [`Expr::from_json`] are the ways to and from the JSON form (`docs/reference/json.md` of the repository), which has all that a tree has.
/// Times and lengths of time are whole milliseconds.
///
/// Nothing that is done with a tree needs more stack for a higher one: it is walked, copied, compared, hashed, shown and dropped without
/// recursion.
pub enum Expr {
    /// An aggregation, as `sum by (job) (up)`.
    Aggregate(AggregateExpr),
    /// A minus before an expression.
    Unary(UnaryExpr),
    /// Two expressions and an operator.
    Binary(BinaryExpr),
    /// An expression in parentheses.
    Paren(ParenExpr),
    /// A subquery, as `up[1h:5m]`.
    Subquery(SubqueryExpr),
    /// A number.
    NumberLiteral(NumberLiteral),
    /// A string.
    StringLiteral(StringLiteral),
    /// A selector, as `up{job="a"}`.
    VectorSelector(VectorSelector),
    /// A selector with a range, as `up[5m]`.
    MatrixSelector(MatrixSelector),
    /// A call of a function.
    Call(Call),
}

/// An aggregation.
#[derive(Clone, Debug, PartialEq, Eq, Hash)]
pub struct AggregateExpr {
    /// The operator: `sum`, `topk` and so on.
    pub op: String,
    /// What is aggregated.
    pub expr: Child,
    /// What operators such as `topk` have before the expression.
    pub param: Option<Child>,
    /// The labels after `by`, or after `without`.
    pub grouping: Vec<String>,
    /// Whether the word is `without`.
    pub without: bool,
}

/// A minus before an expression.
#[derive(Clone, Debug, PartialEq, Eq, Hash)]
pub struct UnaryExpr {
    /// The operand.
    pub expr: Child,
}

/// A binary expression.
#[derive(Clone, Debug, PartialEq, Eq, Hash)]
pub struct BinaryExpr {
    /// The operator: `+`, `==`, `and` and so on.
    pub op: String,
    /// The left side.
    pub lhs: Child,
    /// The right side.
    pub rhs: Child,
    /// Whether the word `bool` is there.
    pub return_bool: bool,
    /// How the sides match.
    pub matching: Option<VectorMatching>,
}

/// How the sides of a binary expression match.
#[derive(Clone, Debug, Default, PartialEq, Eq, Hash)]
pub struct VectorMatching {
    /// How many elements of one side match how many of the other.
    pub card: VectorMatchCardinality,
    /// Whether the sides match by these labels, after `on`, or by all but these, after `ignoring`.
    pub on: bool,
    /// The labels after `on` or `ignoring`.
    pub labels: Vec<String>,
    /// The numbers for elements without a match.
    pub fill_values: VectorMatchFillValues,
}

/// How many elements of one side match how many of the other.
#[derive(Clone, Debug, Default, PartialEq, Eq, Hash)]
pub enum VectorMatchCardinality {
    /// One matches one.
    #[default]
    OneToOne,
    /// `group_left`, with its labels.
    ManyToOne(Vec<String>),
    /// `group_right`, with its labels.
    OneToMany(Vec<String>),
    /// As with `and`, `or` and `unless`, and no other operator.
    ManyToMany,
}

/// The numbers after `fill_left` and `fill_right`, as they print.
#[derive(Clone, Debug, Default, PartialEq, Eq, Hash)]
pub struct VectorMatchFillValues {
    /// The number for the left side.
    pub lhs: Option<String>,
    /// The number for the right side.
    pub rhs: Option<String>,
}

/// An expression in parentheses.
#[derive(Clone, Debug, PartialEq, Eq, Hash)]
pub struct ParenExpr {
    /// The expression inside.
    pub expr: Child,
}

/// A subquery.
#[derive(Clone, Debug, PartialEq, Eq, Hash)]
pub struct SubqueryExpr {
    /// The expression before the bracket.
    pub expr: Child,
    /// The range in milliseconds.
    pub range: u64,
    /// The step in milliseconds.
    pub step: Option<u64>,
    /// The offset in milliseconds, negative for one into the future.
    pub offset: i128,
    /// The time after `@`.
    pub at: Option<AtModifier>,
}

/// A number. It has at most 38 digits, and they are exact, so its value is a text.
#[derive(Clone, Debug, PartialEq, Eq, Hash)]
pub struct NumberLiteral {
    /// The number as it prints: `0.5`, `-Inf`, `NaN`.
    pub val: String,
}

/// A string.
#[derive(Clone, Debug, PartialEq, Eq, Hash)]
pub struct StringLiteral {
    /// The text without its quotes.
    pub val: String,
}

/// A selector.
#[derive(Clone, Debug, Default, PartialEq, Eq, Hash)]
pub struct VectorSelector {
    /// The name before the braces.
    pub name: Option<String>,
    /// The matchers between the braces.
    pub matchers: Matchers,
    /// The offset in milliseconds, negative for one into the future.
    pub offset: i128,
    /// The time after `@`.
    pub at: Option<AtModifier>,
}

/// A selector with a range. The offset and the time after `@` are those of its selector.
#[derive(Clone, Debug, PartialEq, Eq, Hash)]
pub struct MatrixSelector {
    /// The selector.
    pub vs: VectorSelector,
    /// The range in milliseconds.
    pub range: u64,
    /// How samples at the ends of the range are taken.
    pub mode: RangeMode,
}

/// How samples at the ends of a range are taken.
#[derive(Clone, Copy, Debug, Default, PartialEq, Eq, Hash)]
pub enum RangeMode {
    /// No word.
    #[default]
    Plain,
    /// The word `smoothed`.
    Smoothed,
    /// The word `anchored`.
    Anchored,
}

/// The time after `@`.
#[derive(Clone, Copy, Debug, PartialEq, Eq, Hash)]
pub enum AtModifier {
    /// The word `start`.
    Start,
    /// The word `end`.
    End,
    /// Milliseconds since the epoch.
    At(i64),
}

/// The matchers of a selector.
#[derive(Clone, Debug, Default, PartialEq, Eq, Hash)]
pub struct Matchers {
    /// Those that are in no group.
    pub matchers: Vec<Matcher>,
    /// The groups between `or`.
    pub or_matchers: Vec<Vec<Matcher>>,
}

impl Matchers {
    /// Adds a matcher: to each group, where there are groups.
    pub fn add(&mut self, matcher: &Matcher) {
        if self.or_matchers.is_empty() {
            self.matchers.push(matcher.clone());
        }
        for group in &mut self.or_matchers {
            group.push(matcher.clone());
        }
    }
}

/// A matcher of a label.
#[derive(Clone, Debug, PartialEq, Eq, Hash)]
pub struct Matcher {
    /// The operator.
    pub op: MatchOp,
    /// The label.
    pub name: String,
    /// The value, a pattern for `Re` and `NotRe`.
    pub value: String,
}

impl Matcher {
    /// A matcher of these parts.
    pub fn new(op: MatchOp, name: &str, value: &str) -> Matcher {
        Matcher { op, name: name.to_string(), value: value.to_string() }
    }
}

/// The operator of a matcher.
#[derive(Clone, Copy, Debug, PartialEq, Eq, Hash)]
pub enum MatchOp {
    /// `=`
    Equal,
    /// `!=`
    NotEqual,
    /// `=~`
    Re,
    /// `!~`
    NotRe,
}

/// A call of a function.
#[derive(Clone, Debug, PartialEq, Eq, Hash)]
pub struct Call {
    /// The name of the function.
    pub name: String,
    /// The arguments.
    pub args: Children,
}

impl Call {
    /// The function, with its types; `None` where there is none of this name.
    pub fn function(&self) -> Option<&'static Function> {
        get_function(&self.name)
    }
}

impl NumberLiteral {
    /// The value, rounded where it has more digits than an `f64`.
    pub fn to_f64(&self) -> f64 {
        self.val.parse().unwrap_or(f64::NAN)
    }
}

impl Expr {
    /// The selector of this name.
    pub fn selector(name: &str) -> Expr {
        VectorSelector { name: Some(name.to_string()), ..VectorSelector::default() }.into()
    }

    /// A call of the function of this name. One of another name has no text: [`print()`](crate::print) says so.
    pub fn call(name: &str, args: impl Into<Vec<Expr>>) -> Expr {
        Expr::Call(Call { name: name.to_string(), args: args.into().into() })
    }

    /// An aggregation of an expression, by these labels.
    pub fn aggregate_by(op: &str, labels: &[&str], expr: Expr) -> Expr {
        let grouping = labels.iter().map(ToString::to_string).collect();
        Expr::Aggregate(AggregateExpr { op: op.to_string(), expr: expr.into(), param: None, grouping, without: false })
    }

    /// The selector of a selector or of one with a range.
    pub fn as_selector(&self) -> Option<&VectorSelector> {
        match self {
            Expr::VectorSelector(selector) | Expr::MatrixSelector(MatrixSelector { vs: selector, .. }) => Some(selector),
            _ => None,
        }
    }

    /// The same, to be changed.
    pub fn as_selector_mut(&mut self) -> Option<&mut VectorSelector> {
        match self {
            Expr::VectorSelector(selector) | Expr::MatrixSelector(MatrixSelector { vs: selector, .. }) => Some(selector),
            _ => None,
        }
    }

    /// The child of this number, in the order of [`Expr::children`].
    pub(crate) fn child(&self, number: usize) -> Option<&Expr> {
        match self {
            Expr::Aggregate(it) => match (&it.param, number) {
                (Some(param), 0) => Some(param),
                (Some(_), 1) | (None, 0) => Some(&it.expr),
                _ => None,
            },
            Expr::Binary(it) => match number {
                0 => Some(&it.lhs),
                1 => Some(&it.rhs),
                _ => None,
            },
            Expr::Call(it) => it.args.get(number),
            Expr::Paren(ParenExpr { expr }) | Expr::Unary(UnaryExpr { expr }) => (number == 0).then_some(expr),
            Expr::Subquery(it) => (number == 0).then_some(&it.expr),
            Expr::NumberLiteral(_) | Expr::StringLiteral(_) | Expr::VectorSelector(_) | Expr::MatrixSelector(_) => None,
        }
    }

    /// The same, to be changed.
    pub(crate) fn child_mut(&mut self, number: usize) -> Option<&mut Expr> {
        match self {
            Expr::Aggregate(it) => match (&mut it.param, number) {
                (Some(param), 0) => Some(param),
                (Some(_), 1) | (None, 0) => Some(&mut it.expr),
                _ => None,
            },
            Expr::Binary(it) => match number {
                0 => Some(&mut it.lhs),
                1 => Some(&mut it.rhs),
                _ => None,
            },
            Expr::Call(it) => it.args.get_mut(number),
            Expr::Paren(ParenExpr { expr }) | Expr::Unary(UnaryExpr { expr }) => (number == 0).then_some(expr),
            Expr::Subquery(it) => (number == 0).then_some(&mut it.expr),
            Expr::NumberLiteral(_) | Expr::StringLiteral(_) | Expr::VectorSelector(_) | Expr::MatrixSelector(_) => None,
        }
    }

    /// Takes the expression out, and leaves an empty string in its place, which allocates nothing.
    pub(crate) fn take(&mut self) -> Expr {
        mem::replace(self, Expr::StringLiteral(StringLiteral { val: String::new() }))
    }

    /// Takes the child of this number out.
    pub(crate) fn take_child(&mut self, number: usize) -> Option<Expr> {
        self.child_mut(number).map(Expr::take)
    }

    /// Puts an expression in the place of the child of this number, which is there.
    pub(crate) fn put_child(&mut self, number: usize, expr: Expr) {
        if let Some(child) = self.child_mut(number) {
            *child = expr;
        }
    }

    /// The same expression over other children, which the function gives in the order of [`Expr::children`].
    pub(crate) fn over(&self, mut child: impl FnMut() -> Expr) -> Expr {
        match self {
            Expr::Aggregate(it) => {
                let param = it.param.is_some().then(|| child().into());
                let (op, grouping, without) = (it.op.clone(), it.grouping.clone(), it.without);
                Expr::Aggregate(AggregateExpr { op, expr: child().into(), param, grouping, without })
            }
            Expr::Binary(it) => {
                let (lhs, rhs) = (child().into(), child().into());
                let (op, return_bool, matching) = (it.op.clone(), it.return_bool, it.matching.clone());
                Expr::Binary(BinaryExpr { op, lhs, rhs, return_bool, matching })
            }
            Expr::Call(it) => Expr::Call(Call { name: it.name.clone(), args: it.args.iter().map(|_| child()).collect() }),
            Expr::Paren(_) => Expr::Paren(ParenExpr { expr: child().into() }),
            Expr::Subquery(it) => {
                let &SubqueryExpr { range, step, offset, at, .. } = it;
                Expr::Subquery(SubqueryExpr { expr: child().into(), range, step, offset, at })
            }
            Expr::Unary(_) => Expr::Unary(UnaryExpr { expr: child().into() }),
            Expr::NumberLiteral(it) => Expr::NumberLiteral(it.clone()),
            Expr::StringLiteral(it) => Expr::StringLiteral(it.clone()),
            Expr::VectorSelector(it) => Expr::VectorSelector(it.clone()),
            Expr::MatrixSelector(it) => Expr::MatrixSelector(it.clone()),
        }
    }

    /// This expression and all below it: each before those below it, and these in the order of [`Expr::children`].
    pub fn walk(&self) -> Walk<'_> {
        Walk { left: vec![self] }
    }

    /// The tree that the function makes of this one: it is called with each expression, once those below it are what it returned for them,
    /// and returns what takes its place.
    pub fn transform(self, function: &mut impl FnMut(Expr) -> Expr) -> Expr {
        // The expressions that are above the one at hand, each with the number of its child that is taken out of it.
        let mut above: Vec<(Expr, usize)> = Vec::new();
        let (mut expr, mut number) = (self, 0);
        loop {
            if let Some(child) = expr.take_child(number) {
                above.push((expr, number));
                (expr, number) = (child, 0);
                continue;
            }
            let changed = function(expr);
            (expr, number) = match above.pop() {
                Some((mut parent, place)) => {
                    parent.put_child(place, changed);
                    (parent, place + 1)
                }
                None => return changed,
            };
        }
    }
}

impl Clone for Expr {
    fn clone(&self) -> Expr {
        let found: Vec<&Expr> = self.walk().collect();
        let mut made: Vec<Expr> = Vec::new();
        for expr in found.into_iter().rev() {
            // (the children were made before, the first one last)
            let copy = expr.over(|| made.pop().expect("each child is in the walk"));
            made.push(copy);
        }
        made.pop().expect("the walk begins with the expression")
    }
}

impl fmt::Debug for Expr {
    /// Shows the JSON form, with `#` too: fields within fields are indented at a cost that grows with the square of the height and more.
    fn fmt(&self, f: &mut fmt::Formatter<'_>) -> fmt::Result {
        write!(f, "Expr({})", self.to_json())
    }
}

/// The expressions of a tree: what [`Expr::walk`] gives.
#[derive(Clone, Debug)]
pub struct Walk<'a> {
    left: Vec<&'a Expr>,
}

impl<'a> Iterator for Walk<'a> {
    type Item = &'a Expr;

    fn next(&mut self) -> Option<&'a Expr> {
        let expr = self.left.pop()?;
        let first = self.left.len();
        self.left.extend((0..).map_while(|number| expr.child(number)));
        self.left[first..].reverse();
        Some(expr)
    }
}
