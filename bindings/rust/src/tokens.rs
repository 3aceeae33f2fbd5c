//! The tokens of any text, and the parts of the nodes of a query.

use crate::json::{self, Value};
use crate::{Error, library, text_of};
use std::ops::Range;

/// What a token is.
#[derive(Clone, Copy, Debug, PartialEq, Eq, Hash)]
#[non_exhaustive]
pub enum TokenKind {
    /// `sum` and its like.
    Aggregator,
    /// From `#` up to the end of its line.
    Comment,
    /// As `5m`.
    Duration,
    /// What no token begins with.
    Error,
    /// `by`, `offset` and their like.
    Keyword,
    /// Of a metric, a label or a function.
    Name,
    Number,
    /// Between expressions or in a matcher, also `and` and `@`.
    Operator,
    /// A bracket, a comma or a colon.
    Punctuation,
    /// With its quotes.
    String,
}

/// A token: its kind, and its bytes in the text.
#[derive(Clone, Debug, PartialEq, Eq, Hash)]
pub struct Token {
    pub kind: TokenKind,
    pub range: Range<usize>,
}

/// What a part of a node is (`docs/reference/walks.md` of the repository, "Parts of nodes").
#[derive(Clone, Copy, Debug, PartialEq, Eq, Hash)]
#[non_exhaustive]
pub enum PartKind {
    /// The name of a function, or of a metric before braces.
    Name,
    /// Of an aggregation, or of a unary or a binary expression.
    Operator,
    /// What a range follows.
    Selector,
    /// From its label through its value, or the name of a metric as a string.
    Matcher,
    /// Of `by`, `without`, `on` or `ignoring`.
    Label,
    /// Of `group_left` or `group_right`.
    GroupLabel,
    /// With its brackets.
    Range,
    /// `offset` with its duration.
    Offset,
    /// `@` with its time.
    At,
    /// `smoothed` or `anchored`.
    Mode,
}

/// A part of a node: its kind, and its bytes in the query.
#[derive(Clone, Debug, PartialEq, Eq, Hash)]
pub struct Part {
    pub kind: PartKind,
    pub range: Range<usize>,
}

const TOKEN_KINDS: [(&str, TokenKind); 10] = [
    ("aggregator", TokenKind::Aggregator),
    ("comment", TokenKind::Comment),
    ("duration", TokenKind::Duration),
    ("error", TokenKind::Error),
    ("keyword", TokenKind::Keyword),
    ("name", TokenKind::Name),
    ("number", TokenKind::Number),
    ("operator", TokenKind::Operator),
    ("punctuation", TokenKind::Punctuation),
    ("string", TokenKind::String),
];

const PART_KINDS: [(&str, PartKind); 10] = [
    ("name", PartKind::Name),
    ("operator", PartKind::Operator),
    ("selector", PartKind::Selector),
    ("matcher", PartKind::Matcher),
    ("label", PartKind::Label),
    ("groupLabel", PartKind::GroupLabel),
    ("range", PartKind::Range),
    ("offset", PartKind::Offset),
    ("at", PartKind::At),
    ("mode", PartKind::Mode),
];

/// A part of a query that the target reads otherwise, or rejects: its bytes, and why.
#[derive(Clone, Debug, PartialEq, Eq, Hash)]
pub struct Difference {
    /// Whether the target rejects it.
    pub is_rejected: bool,
    pub range: Range<usize>,
    pub message: String,
}

/// What the target ([`set_target`](crate::set_target)) reads otherwise of a query than these rules do, and then what it rejects of it.
/// [`check`](crate::check) gives an error for the first of them.
///
/// # Errors
///
/// Those of [`canonical`](crate::canonical).
pub fn differences(query: &str) -> Result<Vec<Difference>, Error> {
    let shown = text_of(library::differences(query))?;
    Ok(rows(&shown, |value| match value {
        Value::Array(values) => difference(values),
        _ => None,
    }))
}

/// A difference, as the library writes it: `[24,0,3,"Prometheus 3 rejects this: .."]`.
fn difference<'a>(mut values: impl Iterator<Item = Value<'a>>) -> Option<Difference> {
    match (values.next()?, values.next()?, values.next()?, values.next()?) {
        (Value::Number(code), Value::Number(start), Value::Number(end), Value::String(message)) => Some(Difference {
            is_rejected: code.parse() == Ok(library::REFUSED),
            range: start.parse().ok()?..end.parse().ok()?,
            message: message.to_string(),
        }),
        _ => None,
    }
}

/// The tokens of a text, accepted as a query or not, in their order. White space alone is between them.
///
/// # Errors
///
/// `TooLarge` where the text is longer than a query may be ([`set_limits`](crate::set_limits)), `OutOfMemory` and `SmallStack`.
pub fn tokens(text: &str) -> Result<Vec<Token>, Error> {
    let shown = text_of(library::tokens(text))?;
    Ok(rows(&shown, |value| {
        let (kind, range) = kind_and_range(value, &TOKEN_KINDS)?;
        Some(Token { kind, range })
    }))
}

/// The parts of each node of the query's tree, in the order of [`places`](crate::places()). Those of one node are in the order in which
/// they end.
///
/// # Errors
///
/// Those of [`canonical`](crate::canonical).
pub fn parts(query: &str) -> Result<Vec<Vec<Part>>, Error> {
    let shown = text_of(library::parts(query))?;
    Ok(rows(&shown, |value| match value {
        Value::Array(parts) => parts
            .map(|part| {
                let (kind, range) = kind_and_range(part, &PART_KINDS)?;
                Some(Part { kind, range })
            })
            .collect(),
        _ => None,
    }))
}

/// The items of an array that the library wrote.
fn rows<T>(text: &str, row: impl Fn(Value<'_>) -> Option<T>) -> Vec<T> {
    let read = json::read(text);
    match read.as_ref().map(|json| json.value()) {
        Some(Value::Array(values)) => values.filter_map(row).collect(),
        _ => Vec::new(),
    }
}

/// A kind and a range, as the library writes them: `["name",0,3]`.
fn kind_and_range<T: Copy>(value: Value<'_>, kinds: &[(&str, T)]) -> Option<(T, Range<usize>)> {
    let mut values = match value {
        Value::Array(values) => values,
        _ => return None,
    };
    match (values.next()?, values.next()?, values.next()?) {
        (Value::String(name), Value::Number(start), Value::Number(end)) => {
            let (_, kind) = kinds.iter().find(|it| it.0 == name)?;
            Some((*kind, start.parse().ok()?..end.parse().ok()?))
        }
        _ => None,
    }
}
