//! From a tree to its JSON form.

use crate::json::{write_string, write_whole};
use crate::tree::*;

/// The bytes that a form has room for at first.
const FIRST_SIZE: usize = 512;

impl Expr {
    /// The JSON form, without a space and with the members of objects in byte order, as the library writes it.
    pub fn to_json(&self) -> String {
        let mut out = String::with_capacity(FIRST_SIZE);
        // The expressions that have no end yet, the highest first, with the number of their children that were written.
        let mut open = vec![(self, 0)];
        while let Some((expr, number)) = open.last_mut() {
            match write_part(&mut out, expr, *number) {
                Some(child) => {
                    *number += 1;
                    open.push((child, 0));
                }
                None => drop(open.pop()),
            }
        }
        out
    }
}

/// Writes what an expression has before the child of this number, in the order of the form, and returns the child; or its end.
fn write_part<'a>(out: &mut String, expr: &'a Expr, number: usize) -> Option<&'a Expr> {
    match expr {
        Expr::Aggregate(it) => write_aggregate_part(out, it, number),
        Expr::Binary(it) => write_binary_part(out, it, number),
        Expr::Call(it) => write_call_part(out, it, number),
        Expr::Paren(ParenExpr { expr }) | Expr::Unary(UnaryExpr { expr }) | Expr::Subquery(SubqueryExpr { expr, .. }) if number == 0 => {
            out.push_str("{\"expr\":");
            Some(expr)
        }
        _ => {
            write_end(out, expr);
            None
        }
    }
}

fn write_aggregate_part<'a>(out: &mut String, it: &'a AggregateExpr, number: usize) -> Option<&'a Expr> {
    if number == 0 {
        out.push_str("{\"expr\":");
        return Some(&it.expr);
    }
    if number == 1 {
        write_texts(named(out, ",\"grouping\":"), &it.grouping);
        write_string(named(out, ",\"op\":"), &it.op);
        out.push_str(",\"param\":");
        if let Some(param) = &it.param {
            return Some(param);
        }
        out.push_str("null");
    }
    write_flag(named(out, ",\"type\":\"aggregation\",\"without\":"), it.without);
    out.push('}');
    None
}

fn write_binary_part<'a>(out: &mut String, it: &'a BinaryExpr, number: usize) -> Option<&'a Expr> {
    match number {
        0 => {
            write_flag(named(out, "{\"bool\":"), it.return_bool);
            out.push_str(",\"lhs\":");
            Some(&it.lhs)
        }
        1 => {
            write_or_null(named(out, ",\"matching\":"), it.matching.as_ref(), write_matching);
            write_string(named(out, ",\"op\":"), &it.op);
            out.push_str(",\"rhs\":");
            Some(&it.rhs)
        }
        _ => {
            out.push_str(",\"type\":\"binaryExpr\"}");
            None
        }
    }
}

fn write_call_part<'a>(out: &mut String, it: &'a Call, number: usize) -> Option<&'a Expr> {
    if number == 0 {
        out.push_str("{\"args\":[");
    }
    let arg = it.args.get(number);
    match arg {
        Some(_) if number > 0 => out.push(','),
        Some(_) => {}
        None => {
            write_function(named(out, "],\"func\":"), it);
            out.push_str(",\"type\":\"call\"}");
        }
    }
    arg
}

/// Writes an expression without children, or what an expression has after its one child.
fn write_end(out: &mut String, expr: &Expr) {
    match expr {
        Expr::MatrixSelector(it) => {
            write_selector(out, &it.vs);
            write_whole(named(out, ",\"range\":"), it.range);
            out.push_str(match it.mode {
                RangeMode::Plain => "",
                RangeMode::Smoothed => ",\"rangeMode\":\"smoothed\"",
                RangeMode::Anchored => ",\"rangeMode\":\"anchored\"",
            });
            write_start_or_end(out, it.vs.at);
            write_timestamp(out, it.vs.at);
            out.push_str(",\"type\":\"matrixSelector\"}");
        }
        Expr::NumberLiteral(it) => write_literal(out, "{\"type\":\"numberLiteral\",\"val\":", &it.val),
        Expr::Paren(_) => out.push_str(",\"type\":\"parenExpr\"}"),
        Expr::StringLiteral(it) => write_literal(out, "{\"type\":\"stringLiteral\",\"val\":", &it.val),
        Expr::Subquery(it) => write_subquery_end(out, it),
        Expr::Unary(_) => out.push_str(",\"op\":\"-\",\"type\":\"unaryExpr\"}"),
        Expr::VectorSelector(it) => {
            write_selector(out, it);
            write_start_or_end(out, it.at);
            write_timestamp(out, it.at);
            out.push_str(",\"type\":\"vectorSelector\"}");
        }
        // (their parts are written by functions of their own)
        Expr::Aggregate(_) | Expr::Binary(_) | Expr::Call(_) => {}
    }
}

/// Writes the text before a value, which is to be written next.
fn named<'a>(out: &'a mut String, text: &str) -> &'a mut String {
    out.push_str(text);
    out
}

fn write_literal(out: &mut String, before: &str, val: &str) {
    write_string(named(out, before), val);
    out.push('}');
}

fn write_flag(out: &mut String, flag: bool) {
    out.push_str(if flag { "true" } else { "false" });
}

/// Writes a whole number that may be below 0.
fn write_signed(out: &mut String, number: i128) {
    match u64::try_from(number.unsigned_abs()) {
        Ok(size) => write_whole(named(out, if number < 0 { "-" } else { "" }), size),
        // (no form has such a number, and the library says so)
        Err(_) => out.push_str(&number.to_string()),
    }
}

fn write_or_null<T: ?Sized>(out: &mut String, value: Option<&T>, write: impl Fn(&mut String, &T)) {
    match value {
        Some(value) => write(out, value),
        None => out.push_str("null"),
    }
}

fn write_list<T>(out: &mut String, items: &[T], write: impl Fn(&mut String, &T)) {
    out.push('[');
    for (number, item) in items.iter().enumerate() {
        if number > 0 {
            out.push(',');
        }
        write(out, item);
    }
    out.push(']');
}

fn write_texts(out: &mut String, texts: &[String]) {
    write_list(out, texts, |out, text| write_string(out, text));
}

fn write_text_or_null(out: &mut String, text: &Option<String>) {
    write_or_null(out, text.as_deref(), write_string);
}

fn write_matching(out: &mut String, it: &VectorMatching) {
    out.push_str("{\"card\":");
    match &it.card {
        VectorMatchCardinality::OneToOne => out.push_str("\"one-to-one\""),
        VectorMatchCardinality::ManyToMany => out.push_str("\"many-to-many\""),
        VectorMatchCardinality::ManyToOne(labels) => {
            write_texts(named(out, "{\"many-to-one\":"), labels);
            out.push('}');
        }
        VectorMatchCardinality::OneToMany(labels) => {
            write_texts(named(out, "{\"one-to-many\":"), labels);
            out.push('}');
        }
    }
    write_text_or_null(named(out, ",\"fillValues\":{\"lhs\":"), &it.fill_values.lhs);
    write_text_or_null(named(out, ",\"rhs\":"), &it.fill_values.rhs);
    write_texts(named(out, "},\"include\":[],\"labels\":"), &it.labels);
    write_flag(named(out, ",\"on\":"), it.on);
    out.push('}');
}

fn write_subquery_end(out: &mut String, it: &SubqueryExpr) {
    write_signed(named(out, ",\"offset\":"), it.offset);
    write_whole(named(out, ",\"range\":"), it.range);
    write_start_or_end(out, it.at);
    write_or_null(named(out, ",\"step\":"), it.step.as_ref(), |out, step| write_whole(out, *step));
    write_timestamp(out, it.at);
    out.push_str(",\"type\":\"subquery\"}");
}

/// Writes the members of a selector that are before its range, or else before the time after `@`.
fn write_selector(out: &mut String, it: &VectorSelector) {
    write_list(named(out, "{\"matchers\":"), &it.matchers.matchers, write_matcher);
    write_text_or_null(named(out, ",\"name\":"), &it.name);
    write_signed(named(out, ",\"offset\":"), it.offset);
    if !it.matchers.or_matchers.is_empty() {
        let write_group = |out: &mut String, group: &Vec<Matcher>| write_list(out, group, write_matcher);
        write_list(named(out, ",\"or_matchers\":"), &it.matchers.or_matchers, write_group);
    }
}

fn write_matcher(out: &mut String, it: &Matcher) {
    write_string(named(out, "{\"name\":"), &it.name);
    out.push_str(match it.op {
        MatchOp::Equal => ",\"type\":\"=\",\"value\":",
        MatchOp::NotEqual => ",\"type\":\"!=\",\"value\":",
        MatchOp::Re => ",\"type\":\"=~\",\"value\":",
        MatchOp::NotRe => ",\"type\":\"!~\",\"value\":",
    });
    write_string(out, &it.value);
    out.push('}');
}

fn write_start_or_end(out: &mut String, at: Option<AtModifier>) {
    out.push_str(match at {
        None | Some(AtModifier::At(_)) => ",\"startOrEnd\":null",
        Some(AtModifier::Start) => ",\"startOrEnd\":\"start\"",
        Some(AtModifier::End) => ",\"startOrEnd\":\"end\"",
    });
}

fn write_timestamp(out: &mut String, at: Option<AtModifier>) {
    out.push_str(",\"timestamp\":");
    match at {
        Some(AtModifier::At(milliseconds)) => write_signed(out, milliseconds.into()),
        _ => out.push_str("null"),
    }
}

/// Writes the function of a call. One without a row of the table has no types, and is no function to the library.
fn write_function(out: &mut String, call: &Call) {
    let function = call.function();
    let types = function.map_or(&[][..], |it| it.arg_types);
    write_list(named(out, "{\"argTypes\":"), types, |out, it| write_string(out, it.text()));
    write_flag(named(out, ",\"experimental\":"), function.map_or(false, |it| it.experimental));
    write_string(named(out, ",\"name\":"), &call.name);
    write_string(named(out, ",\"returnType\":"), function.map_or("vector", |it| it.return_type.text()));
    write_signed(named(out, ",\"variadic\":"), function.map_or(0, |it| it.variadic).into());
    out.push('}');
}
