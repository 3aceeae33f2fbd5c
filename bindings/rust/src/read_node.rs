//! From the JSON form of a node to the node: what it has beside the nodes below it.

use crate::child::Child;
use crate::function::get_function;
use crate::json::Value;
use crate::members::{Fault, Members, Read, items_of};
use crate::tree::*;
use std::vec;

/// Where a node is in the node above it.
#[derive(Clone)]
pub enum Step {
    /// It is the whole tree.
    Root,
    /// The member of this name.
    Member(&'static str),
    /// The argument of this number.
    Argument(usize),
}

impl Step {
    /// Adds the step to a path.
    pub fn add_to(&self, path: &mut String) {
        match self {
            Step::Root => {}
            Step::Member(name) => path.extend([".", name]),
            Step::Argument(number) => path.push_str(&format!(".args[{number}]")),
        }
    }
}

/// The nodes below a node, in the order in which `Kind::take_children` gave their forms.
pub struct BelowNode {
    left: vec::IntoIter<Expr>,
}

impl BelowNode {
    pub fn of(children: Vec<Expr>) -> BelowNode {
        BelowNode { left: children.into_iter() }
    }

    fn count(&self) -> usize {
        self.left.len()
    }

    fn next(&mut self) -> Child {
        self.left.next().expect("each form of a child was read").into()
    }
}

/// Which members of a node are the nodes below it.
enum Below {
    /// These members.
    Members(&'static [&'static str]),
    /// The parameter, where there is one, and the expression that is aggregated.
    Aggregated,
    /// The arguments.
    Arguments,
}

/// How a node of one type is read.
pub struct Kind {
    below: Below,
    pub build: fn(&mut Members<'_>, &mut BelowNode) -> Read<Expr>,
}

impl Kind {
    /// The forms of the nodes below, with where they are.
    pub fn take_children<'a>(&self, members: &mut Members<'a>) -> Read<Vec<(Step, Value<'a>)>> {
        let member = |members: &mut Members<'a>, name| Ok((Step::Member(name), members.take(name)?));
        match self.below {
            Below::Members(names) => names.iter().map(|name| member(members, name)).collect(),
            Below::Aggregated => {
                let param = members.take_or_null("param")?;
                let expr = member(members, "expr")?;
                Ok(param.map(|value| (Step::Member("param"), value)).into_iter().chain([expr]).collect())
            }
            Below::Arguments => {
                let args = members.list("args")?;
                Ok(args.into_iter().enumerate().map(|(number, value)| (Step::Argument(number), value)).collect())
            }
        }
    }
}

const LEAF: Below = Below::Members(&[]);
const OPERAND: Below = Below::Members(&["expr"]);

/// The types of nodes, and how each is read.
const KINDS: [(&str, &Kind); 10] = [
    ("aggregation", &Kind { below: Below::Aggregated, build: build_aggregation }),
    ("binaryExpr", &Kind { below: Below::Members(&["lhs", "rhs"]), build: build_binary }),
    ("call", &Kind { below: Below::Arguments, build: build_call }),
    ("matrixSelector", &Kind { below: LEAF, build: build_matrix_selector }),
    ("numberLiteral", &Kind { below: LEAF, build: build_number }),
    ("parenExpr", &Kind { below: OPERAND, build: build_paren }),
    ("stringLiteral", &Kind { below: LEAF, build: build_string }),
    ("subquery", &Kind { below: OPERAND, build: build_subquery }),
    ("unaryExpr", &Kind { below: OPERAND, build: build_unary }),
    ("vectorSelector", &Kind { below: LEAF, build: build_vector_selector }),
];

/// How a node of this type is read.
pub fn kind_of(members: &mut Members<'_>) -> Read<&'static Kind> {
    members.word("type", &KINDS)
}

const MILLISECONDS: &str = "expected a whole number from 0 to 2^64 - 1";

fn build_aggregation(members: &mut Members<'_>, below: &mut BelowNode) -> Read<Expr> {
    Ok(Expr::Aggregate(AggregateExpr {
        op: members.text("op")?,
        param: (below.count() == 2).then(|| below.next()),
        expr: below.next(),
        grouping: members.texts("grouping")?,
        without: members.flag("without")?,
    }))
}

fn build_number(members: &mut Members<'_>, _: &mut BelowNode) -> Read<Expr> {
    Ok(Expr::NumberLiteral(NumberLiteral { val: members.text("val")? }))
}

fn build_paren(_: &mut Members<'_>, below: &mut BelowNode) -> Read<Expr> {
    Ok(Expr::Paren(ParenExpr { expr: below.next() }))
}

fn build_string(members: &mut Members<'_>, _: &mut BelowNode) -> Read<Expr> {
    Ok(Expr::StringLiteral(StringLiteral { val: members.text("val")? }))
}

fn build_unary(members: &mut Members<'_>, below: &mut BelowNode) -> Read<Expr> {
    members.word("op", &[("-", ())])?;
    Ok(Expr::Unary(UnaryExpr { expr: below.next() }))
}

fn build_binary(members: &mut Members<'_>, below: &mut BelowNode) -> Read<Expr> {
    let matching = members.take_or_null("matching")?;
    let read = |value| Members::of(value).and_then(read_matching).map_err(|fault| fault.of_member("matching"));
    Ok(Expr::Binary(BinaryExpr {
        op: members.text("op")?,
        lhs: below.next(),
        rhs: below.next(),
        return_bool: members.flag("bool")?,
        matching: matching.map(read).transpose()?,
    }))
}

fn read_matching(mut members: Members<'_>) -> Read<VectorMatching> {
    let fill_values = members.object("fillValues", |mut fill| {
        let found = VectorMatchFillValues { lhs: fill.text_or_null("lhs")?, rhs: fill.text_or_null("rhs")? };
        fill.end()?;
        Ok(found)
    })?;
    if !members.list("include")?.is_empty() {
        return members.fault("include", "expected an empty list");
    }
    let card = members.take("card")?;
    let found = VectorMatching {
        card: read_cardinality(card).map_err(|fault| fault.of_member("card"))?,
        on: members.flag("on")?,
        labels: members.texts("labels")?,
        fill_values,
    };
    members.end()?;
    Ok(found)
}

fn read_cardinality(value: Value<'_>) -> Read<VectorMatchCardinality> {
    match value {
        Value::String("one-to-one") => return Ok(VectorMatchCardinality::OneToOne),
        Value::String("many-to-many") => return Ok(VectorMatchCardinality::ManyToMany),
        Value::Object(_) => {}
        _ => return Err(Fault::here("expected one-to-one, many-to-many or an object")),
    }
    let mut members = Members::of(value)?;
    let found = if members.has("many-to-one") {
        VectorMatchCardinality::ManyToOne(members.texts("many-to-one")?)
    } else {
        VectorMatchCardinality::OneToMany(members.texts("one-to-many")?)
    };
    members.end()?;
    Ok(found)
}

fn build_subquery(members: &mut Members<'_>, below: &mut BelowNode) -> Read<Expr> {
    Ok(Expr::Subquery(SubqueryExpr {
        expr: below.next(),
        range: members.number("range", MILLISECONDS)?,
        step: members.number_or_null("step", MILLISECONDS)?,
        offset: read_offset(members)?,
        at: read_at(members)?,
    }))
}

fn build_matrix_selector(members: &mut Members<'_>, _: &mut BelowNode) -> Read<Expr> {
    let mode = if members.has("rangeMode") {
        members.word("rangeMode", &[("smoothed", RangeMode::Smoothed), ("anchored", RangeMode::Anchored)])?
    } else {
        RangeMode::Plain
    };
    let range = members.number("range", MILLISECONDS)?;
    Ok(Expr::MatrixSelector(MatrixSelector { vs: read_selector(members)?, range, mode }))
}

fn build_vector_selector(members: &mut Members<'_>, _: &mut BelowNode) -> Read<Expr> {
    read_selector(members).map(Expr::VectorSelector)
}

fn read_selector(members: &mut Members<'_>) -> Read<VectorSelector> {
    let mut matchers = Matchers { matchers: members.items("matchers", read_matcher)?, or_matchers: Vec::new() };
    if members.has("or_matchers") {
        matchers.or_matchers = members.items("or_matchers", |group| items_of(group, read_matcher))?;
        if matchers.or_matchers.is_empty() {
            return members.fault("or_matchers", "expected a group");
        }
    }
    Ok(VectorSelector { name: members.text_or_null("name")?, matchers, offset: read_offset(members)?, at: read_at(members)? })
}

fn read_matcher(value: Value<'_>) -> Read<Matcher> {
    const OPERATORS: [(&str, MatchOp); 4] = [("=", MatchOp::Equal), ("!=", MatchOp::NotEqual), ("=~", MatchOp::Re), ("!~", MatchOp::NotRe)];
    let mut members = Members::of(value)?;
    let found = Matcher { op: members.word("type", &OPERATORS)?, name: members.text("name")?, value: members.text("value")? };
    members.end()?;
    Ok(found)
}

fn read_offset(members: &mut Members<'_>) -> Read<i128> {
    const EXPECTED: &str = "expected a whole number from -2^63 to 2^64 - 1";
    let offset = members.number("offset", EXPECTED)?;
    if offset < i128::from(i64::MIN) || offset > i128::from(u64::MAX) {
        return members.fault("offset", EXPECTED);
    }
    Ok(offset)
}

fn read_at(members: &mut Members<'_>) -> Read<Option<AtModifier>> {
    const WORDS: [(&str, AtModifier); 2] = [("start", AtModifier::Start), ("end", AtModifier::End)];
    let timestamp = members.number_or_null("timestamp", "expected a whole number from -2^63 to 2^63 - 1, or null")?;
    if members.has_null("startOrEnd") {
        members.take("startOrEnd")?;
        return Ok(timestamp.map(AtModifier::At));
    }
    let word = members.word("startOrEnd", &WORDS)?;
    match timestamp {
        Some(_) => members.fault("timestamp", "expected null beside startOrEnd"),
        None => Ok(Some(word)),
    }
}

fn build_call(members: &mut Members<'_>, below: &mut BelowNode) -> Read<Expr> {
    let name = members.take("func").and_then(|value| read_function(value).map_err(|fault| fault.of_member("func")))?;
    Ok(Expr::Call(Call { name, args: below.left.by_ref().collect() }))
}

/// The name of a function, which has to be one of the table.
fn read_function(value: Value<'_>) -> Read<String> {
    let mut members = Members::of(value)?;
    let name = members.text("name")?;
    let function = match get_function(&name) {
        Some(function) => function,
        None => return members.fault("name", "expected the name of a function"),
    };
    let types = members.texts("argTypes")?;
    let variadic: i32 = members.number("variadic", "expected a whole number")?;
    let return_type = members.text("returnType")?;
    let experimental = members.flag("experimental")?;
    members.end()?;
    let is_same = types.iter().eq(function.arg_types.iter().map(|it| it.text()))
        && variadic == function.variadic
        && return_type == function.return_type.text()
        && experimental == function.experimental;
    match is_same {
        true => Ok(name),
        false => Err(Fault::here(&format!("expected the function {name}"))),
    }
}
