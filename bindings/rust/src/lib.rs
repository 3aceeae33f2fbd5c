//! PromQL, the query language of Prometheus: print, check and lay out queries, by a library that is proved.
//!
//! ```
//! assert_eq!(promql_proved::canonical("sum(rate(foo[5m]))by(job)")?, "sum by (job) (rate(foo[5m]))");
//! # Ok::<(), promql_proved::Error>(())
//! ```
//!
//! [`parse`] reads a query into an [`Expr`], which [`print()`] prints again:
//!
//! ```
//! # use promql_proved::{Expr, parse};
//! let expr = parse("rate(foo[5m])")?;
//! assert_eq!(expr.walk().filter_map(|it| it.as_selector()?.name.as_deref()).collect::<Vec<_>>(), ["foo"]);
//! let total = Expr::aggregate_by("sum", &["job"], expr); // sum by (job) (rate(foo[5m]))
//! # Ok::<(), promql_proved::Error>(())
//! ```
//!
//! Any thread may call any function at any time. What is proved of the calls, and what is not, is in
//! `docs/guide/bindings.md` of the repository.

mod child;
mod children;
mod conversions;
mod durations;
mod function;
mod function_table;
mod json;
mod library;
mod members;
mod node_faults;
mod own_parts;
mod part_texts;
mod placed;
mod print_tree;
mod read_form;
mod read_node;
mod times;
mod tokens;
mod tree;
mod visitor;
mod write_form;
mod written_form;

pub use child::{Child, Children};
pub use durations::{DurationError, milliseconds};
pub use function::{Function, ValueType, get_function};
pub use placed::{PlacedExpr, parse_placed};
pub use print_tree::{NodeError, NodeFault, parse, places, print, print_layout};
pub use read_form::{FormError, MOST_HEIGHT};
pub use times::{EvalTimes, Reach, Reached, Window, is_constant, last_read, may_read, pin, reaches, windows};
pub use tokens::{Difference, Part, PartKind, Token, TokenKind, differences, parts, tokens};
pub use tree::*;
pub use visitor::{ExprVisitor, ExprVisitorMut, walk_expr, walk_expr_mut};

use json::Value;
use library::{Answer, Mode, Named};
use std::error;
use std::fmt;
use std::ops::Range;

/// Why a function returns nothing for a query.
#[derive(Clone, Debug, PartialEq, Eq)]
#[non_exhaustive]
pub enum Error {
    /// An allocation of the library failed.
    OutOfMemory,
    /// The query is rejected.
    Rejected(Rejection),
    /// The query is too long, or its patterns are too large together ([`set_limits`]).
    TooLarge(Rejection),
    /// The target reads a part of the query otherwise ([`set_target`]).
    ReadOtherwise(Rejection),
    /// The target rejects a part of the query ([`set_target`]). Of [`check`] alone.
    Refused(Rejection),
    /// The target reads a part of the matcher otherwise ([`set_target`]): which.
    MatcherReadOtherwise(String),
    /// The level of a layout is above 512.
    LevelTooHigh,
    /// The width of a layout for people is above 65,535, or its indentation above 16: which.
    WideLayout(String),
    /// The query has no JSON form: a number of milliseconds is below -2^63 or above 2^64 - 1.
    NumberTooWide,
    /// The text is no matcher: what is wrong, and where.
    NotAMatcher(String),
    /// The matcher is one of the metric's name, `__name__`, which cannot be enforced.
    MetricName,
    /// The query that was made would not mean the changed query, or the tree: why.
    Unfaithful(String),
    /// The text is not JSON, or is the form of no tree: where, as `$.lhs.args[0].range`, and what was expected there.
    NotATree(String),
    /// The JSON form of a tree is too long ([`set_max_tree`]), or its line is, or its patterns are too large together ([`set_limits`]):
    /// which.
    TooLargeTree(String),
    /// The query calls `info` without a second argument, so that no matcher limits the series that this reads.
    BareInfo,
    /// The matcher, or the query with it, is too long, or its patterns are too large together ([`set_limits`]): which, and why.
    LargeEnforced(String),
    /// The new name is no name of a metric.
    NotAName,
    /// The old name or the new one of a label is `__name__`, which names no label but the metric.
    MetricLabel,
    /// Both labels are in one list, and would become one.
    Clash,
    /// 64 bits do not hold a time of a node in milliseconds: which.
    TimeOverflow(String),
    /// The query is not pinned: it calls `start`, `end`, `step` or `range`, whose values are those of the whole query.
    GridFunction,
    /// A time or a length of time is no whole number of milliseconds, or 64 bits do not hold it.
    PartOfMillisecond,
    /// What would be returned is too long ([`set_max_output`]): the numbers.
    LongOutput(String),
    /// The thread has less than 1.25 MiB of stack left, and a query may need as much. Threads of `std::thread` have 2 MiB.
    SmallStack,
    /// An expression of a tree is at fault, so that the tree has no text.
    Node(NodeError),
    /// The text is no JSON form of a query.
    Form(FormError),
}

/// Why and where a query is rejected.
#[derive(Clone, Debug, PartialEq, Eq)]
pub struct Rejection {
    /// What is wrong, without the place.
    pub message: String,
    /// The bytes of the query that the error is about, none at the query's end.
    pub range: Range<usize>,
    /// The line in which the range begins, from 1.
    pub line: usize,
    /// The column in which the range begins, from 1, in characters.
    pub column: usize,
}

/// Why a query is rejected, for people.
#[derive(Clone, Debug, PartialEq, Eq)]
pub struct Explanation {
    /// What is wrong. At a syntax error it says what was found and what was expected, and what may be meant; of more than 512 levels it
    /// says what to do about them.
    pub message: String,
    /// The names of what was expected, as `string`, `"}"` or `end of query`; none of any other error.
    pub expected: Vec<String>,
    /// The token that does not fit, as `identifier "b"`, or `end of query`; `None` of any other error.
    pub found: Option<String>,
}

impl Rejection {
    /// What is said of the query that it is of (`docs/guide/bindings.md` of the repository, "Why a query is rejected"). It is another call
    /// of the library, which reads the beginning of the query some sixty times. Where it tells of another place, as with other limits than
    /// before, the explanation has the message of the rejection alone.
    pub fn explain(&self, query: &str) -> Explanation {
        let (text, answer) = library::explain(query);
        let told = if answer.status == library::OK { json::read(&text) } else { None };
        let explanation = told.and_then(|json| explanation_in(json.value(), (self.line, self.column)));
        explanation.unwrap_or_else(|| Explanation { message: self.message.clone(), expected: Vec::new(), found: None })
    }

    /// The line of the query where the range begins, a line feed, and a mark below the range.
    pub fn snippet(&self, query: &str) -> String {
        library::snippet(query, self.range.start, self.range.end).0
    }
}

impl fmt::Display for Rejection {
    fn fmt(&self, f: &mut fmt::Formatter<'_>) -> fmt::Result {
        write!(f, "{}:{}: {}", self.line, self.column, self.message)
    }
}

impl fmt::Display for Error {
    fn fmt(&self, f: &mut fmt::Formatter<'_>) -> fmt::Result {
        match self {
            Error::OutOfMemory => f.write_str("out of memory"),
            Error::Rejected(rejection) | Error::TooLarge(rejection) | Error::ReadOtherwise(rejection) | Error::Refused(rejection) => {
                rejection.fmt(f)
            }
            Error::LevelTooHigh => f.write_str("level is above 512"),
            Error::NumberTooWide => f.write_str("number too wide for JSON"),
            Error::MetricName => f.write_str("a matcher of the metric name cannot be enforced"),
            Error::NotAMatcher(message)
            | Error::Unfaithful(message)
            | Error::NotATree(message)
            | Error::TooLargeTree(message)
            | Error::MatcherReadOtherwise(message)
            | Error::WideLayout(message)
            | Error::LargeEnforced(message)
            | Error::TimeOverflow(message)
            | Error::LongOutput(message) => f.write_str(message),
            Error::NotAName => f.write_str("the new name is no name of a metric"),
            Error::MetricLabel => f.write_str("the label of the metric name cannot be renamed"),
            Error::Clash => f.write_str("both labels are in one list"),
            Error::GridFunction => f.write_str("a call of `start`, `end`, `step` or `range` depends on the times of the whole query"),
            Error::PartOfMillisecond => f.write_str("no whole number of milliseconds"),
            Error::BareInfo => f.write_str("info without a selector reads series that no matcher limits"),
            Error::SmallStack => f.write_str(SMALL_STACK),
            Error::Node(fault) => fault.fmt(f),
            Error::Form(fault) => fault.fmt(f),
        }
    }
}

impl error::Error for Rejection {}

impl error::Error for Error {}

/// How the message about a text that is no matcher begins.
const NOT_A_MATCHER: &str = "not a matcher";

/// The message of a thread with little stack.
const SMALL_STACK: &str = "the thread has less than 1.25 MiB of stack left";

/// How [`format()`] lays a query out.
#[derive(Clone, Copy, Debug, PartialEq, Eq)]
pub struct Layout {
    /// The most bytes that a line has after its indentation by the level, where that can be.
    pub width: usize,
    /// The indentations of two spaces before each line, at most 512.
    pub level: u16,
}

impl Default for Layout {
    /// Lines of at most 100 bytes, not indented.
    fn default() -> Layout {
        Layout { width: 100, level: 0 }
    }
}

/// The query on one line, the same for each spelling of the query: the key of a cache.
///
/// # Errors
///
/// `TooLarge` where the query is not within its limits, else `Rejected` where it is rejected; `LongOutput` where the line is too long;
/// `OutOfMemory` where an allocation failed, `SmallStack` where the thread has little stack left.
pub fn canonical(query: &str) -> Result<String, Error> {
    text_of(library::canonical(query))
}

/// The query, laid out over several lines where one would have more bytes than the layout's width.
///
/// # Errors
///
/// Those of [`canonical`], and `LevelTooHigh`.
pub fn format(query: &str, layout: Layout) -> Result<String, Error> {
    text_of(library::print(query, Mode::Pretty, layout.level, layout.width))
}

/// How [`format_query`] lays a query out.
#[derive(Clone, Copy, Debug, PartialEq, Eq)]
pub struct Style {
    /// The most characters of a line, its indentation counted, where it can be broken.
    pub width: usize,
    /// The spaces of an indentation.
    pub indent_width: usize,
    /// Whether numbers, durations, strings and the order of what is written stay as they are.
    pub keep_spelling: bool,
    /// Whether the matchers of a selector are sorted, unless the spelling is kept.
    pub sort_matchers: bool,
}

impl Default for Style {
    /// Lines of at most 100 characters, indentations of two spaces, one spelling for all, and matchers as written.
    fn default() -> Style {
        Style { width: 100, indent_width: 2, keep_spelling: false, sort_matchers: false }
    }
}

/// The query, laid out for people (`docs/reference/formatting.md` of the repository): comments stay, and chains of operators are flat.
/// What is returned was read again, and has the query's tree and comments.
///
/// # Errors
///
/// Those of [`canonical`], `ReadOtherwise`, `WideLayout` where the style asks for more than it may, and `Unfaithful` where the layout does not
/// read back.
pub fn format_query(query: &str, style: Style) -> Result<String, Error> {
    let spelling = if style.keep_spelling { 1 } else { 2 * u32::from(style.sort_matchers) };
    let (text, answer) = library::format_query(query, style.width, style.indent_width, spelling);
    match answer.status {
        library::UNKNOWN_MODE => Err(Error::WideLayout(text)),
        _ => text_of((text, answer)),
    }
}

/// The tree of the query in its JSON form (`docs/reference/json.md` of the repository), without a space.
///
/// # Errors
///
/// Those of [`canonical`], and `NumberTooWide` where the query has no JSON form.
pub fn json(query: &str) -> Result<String, Error> {
    text_of(library::print(query, Mode::Json, 0, 0))
}

/// What [`json`] returns, with the places of nodes and matchers: `&query[start..end]` is the part of the text that has the node or the
/// matcher, by the members `start` and `end` of its object (`docs/reference/json.md` of the repository, "Places"). [`print_tree`] takes no
/// such form.
///
/// # Errors
///
/// Those of [`json`].
pub fn placed_json(query: &str) -> Result<String, Error> {
    text_of(library::print(query, Mode::PlacedJson, 0, 0))
}

/// The query on one line with a matcher in every selector, in each of its or-groups: that of a tenant, say. The matcher is written
/// as between the braces of a selector: `namespace="team-a"`. What is returned means the changed query
/// (`docs/guide/rewriting.md` of the repository).
///
/// # Errors
///
/// Those of [`canonical`]; `NotAMatcher` and `MetricName` where the matcher is none to enforce; `BareInfo` where the query calls
/// `info` without a second argument; `LargeEnforced` where the matcher, or the query with it, is not within the limits of a query;
/// `Unfaithful` where the line would not mean the changed query.
pub fn enforce(query: &str, matcher: &str) -> Result<String, Error> {
    text_of(library::enforce(query, matcher))
}

/// The query on one line with the metric `from` named `to`: before braces, and in equal matchers of `__name__`. What is returned was read
/// again, and means the renamed query (`docs/guide/rewriting.md` of the repository).
///
/// # Errors
///
/// Those of [`canonical`]; `NotAName` where the new name is none of a metric, such as `a.b`; `LargeEnforced` where the renamed query is not
/// within the limits of a query.
pub fn rename_metric(query: &str, from: &str, to: &str) -> Result<String, Error> {
    text_of(library::rename(query, Named::Metric, from, to))
}

/// The query on one line with the label `from` named `to`: in matchers, and in the lists of aggregations and operators. Strings stay as
/// they are, those of `label_replace` too.
///
/// # Errors
///
/// Those of [`rename_metric`] but `NotAName`; `MetricLabel` where one of the names is `__name__`; `Clash` where one list has both labels.
pub fn rename_label(query: &str, from: &str, to: &str) -> Result<String, Error> {
    text_of(library::rename(query, Named::Label, from, to))
}

/// The query that has the tree of this JSON form (`docs/reference/json.md` of the repository), on one line, or laid out where there is a
/// layout; with parentheses where the tree needs them, if `parentheses` is true. What is returned was read again, and means the tree.
///
/// # Errors
///
/// `NotATree` where the text is no such form; `TooLargeTree` where the line of the tree is not within the limits of a query; `Unfaithful`
/// where it would not mean the tree; `LevelTooHigh`; `OutOfMemory` where an allocation failed, `SmallStack` where the thread has little
/// stack left.
pub fn print_tree(form: &str, parentheses: bool, layout: Option<Layout>) -> Result<String, Error> {
    let (mode, Layout { width, level }) = match layout {
        Some(layout) => (Mode::Pretty, layout),
        None => (Mode::Line, Layout::default()),
    };
    let (text, answer) = library::print_tree(form, mode, level, width, parentheses);
    match answer.status {
        library::TOO_LARGE => Err(Error::TooLargeTree(text)),
        _ => text_of((text, answer)),
    }
}

/// What a query names, as JSON without a space: its functions, labels and metrics, and its selectors with their times
/// (`docs/guide/bindings.md` of the repository, "What a query names").
///
/// # Errors
///
/// Those of [`canonical`].
pub fn collect(query: &str) -> Result<String, Error> {
    text_of(library::collect(query))
}

/// Returns where the query is accepted.
///
/// # Errors
///
/// Those of [`canonical`].
pub fn check(query: &str) -> Result<(), Error> {
    text_of(library::check(query)).map(drop)
}

/// Sets what each later query has to be within, in this process: at most so many bytes, 32,768 before the first call, and patterns
/// of at most this size together, 16,000 (`docs/reference/programs.md` of the repository, "Limits of a query"). A matcher that is
/// enforced, and the query with it, have the same limits.
pub fn set_limits(max_len: usize, max_pattern_size: usize) {
    library::set_limits(max_len, max_pattern_size);
}

/// What reads the queries that are sent on (`docs/reference/programs.md` of the repository, "Targets").
#[derive(Clone, Copy, Debug, Default, PartialEq, Eq)]
pub enum Target {
    /// A Prometheus, which reads some parts of queries otherwise, as `-0` and `"\xc3"`.
    #[default]
    Prometheus3,
    /// The rules of this library alone.
    Rules,
    /// Prometheus 2.42, which also rejects what came later.
    Prometheus2,
}

/// Sets what reads each later query that [`enforce`], [`rename_metric`], [`rename_label`] and [`format_query`] return and [`check`] checks, in
/// this process: [`Target::Prometheus3`] before the first call. What it reads otherwise gives [`Error::ReadOtherwise`], or of a matcher
/// [`Error::MatcherReadOtherwise`]. What it rejects gives [`Error::Refused`], of [`check`].
pub fn set_target(target: Target) {
    library::set_target(match target {
        Target::Prometheus3 => 0,
        Target::Rules => 1,
        Target::Prometheus2 => 2,
    });
}

/// Sets how many bytes what [`canonical`], [`format()`], [`pin`], [`json`] and [`placed_json`] return has at most, in this process: 4,194,304 before
/// the first call.
pub fn set_max_output(bytes: usize) {
    library::set_max_output(bytes);
}

/// Sets how many bytes the JSON form of a tree that is printed has at most, in this process: 4,194,304 before the first call. Where
/// there are more, or its patterns are larger than those of a query may be, the error is [`Error::TooLargeTree`], before anything of it
/// is compiled.
pub fn set_max_tree(bytes: usize) {
    library::set_max_tree(bytes);
}

/// The version of the library.
pub fn version() -> String {
    library::version().0
}

fn text_of((text, answer): (String, Answer)) -> Result<String, Error> {
    match answer.status {
        library::OK => Ok(text),
        library::OUT_OF_MEMORY => Err(Error::OutOfMemory),
        library::REJECTED => Err(Error::Rejected(rejection_of(text, &answer))),
        library::TOO_LARGE => Err(Error::TooLarge(rejection_of(text, &answer))),
        // (of a matcher it has no place)
        library::READ_OTHERWISE if answer.line == 0 => Err(Error::MatcherReadOtherwise(text)),
        library::READ_OTHERWISE => Err(Error::ReadOtherwise(rejection_of(text, &answer))),
        library::REFUSED => Err(Error::Refused(rejection_of(text, &answer))),
        library::UNKNOWN_MODE => Err(Error::LevelTooHigh),
        library::NUMBER_TOO_WIDE => Err(Error::NumberTooWide),
        library::BAD_MATCHER if text.starts_with(NOT_A_MATCHER) => Err(Error::NotAMatcher(text)),
        library::BAD_MATCHER => Err(Error::MetricName),
        library::UNFAITHFUL => Err(Error::Unfaithful(text)),
        library::BARE_INFO => Err(Error::BareInfo),
        library::SMALL_STACK => Err(Error::SmallStack),
        library::NOT_A_TREE => Err(Error::NotATree(text)),
        library::LARGE_ENFORCED => Err(Error::LargeEnforced(text)),
        library::LONG_OUTPUT => Err(Error::LongOutput(text)),
        library::NOT_A_NAME => Err(Error::NotAName),
        library::METRIC_LABEL => Err(Error::MetricLabel),
        library::CLASH => Err(Error::Clash),
        library::TIME_OVERFLOW => Err(Error::TimeOverflow(text)),
        library::GRID_FUNCTION => Err(Error::GridFunction),
        status => unreachable!("status {status}: {text}"),
    }
}

/// The explanation in an object of JSON, if it tells of this place: a line and a column.
fn explanation_in(told: Value<'_>, place: (usize, usize)) -> Option<Explanation> {
    let members = match told {
        Value::Object(values) => values.members(),
        _ => return None,
    };
    let (mut message, mut expected, mut found, mut line, mut column) = (None, Vec::new(), None, None, None);
    for (name, value) in members {
        match (name, value) {
            ("line", Value::Number(number)) => line = number.parse().ok(),
            ("column", Value::Number(number)) => column = number.parse().ok(),
            ("error", Value::String(text)) => message = Some(text.to_string()),
            ("found", Value::String(text)) => found = Some(text.to_string()),
            ("expected", Value::Array(names)) => expected = names.filter_map(text_in).collect(),
            _ => {}
        }
    }
    ((line?, column?) == place).then_some(Explanation { message: message?, expected, found })
}

fn text_in(value: Value<'_>) -> Option<String> {
    match value {
        Value::String(text) => Some(text.to_string()),
        _ => None,
    }
}

fn rejection_of(message: String, answer: &Answer) -> Rejection {
    Rejection { message, range: answer.start..answer.end, line: answer.line, column: answer.column }
}
