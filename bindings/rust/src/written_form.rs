//! Reads trees of the text of the JSON form as the library writes it: without a space, the members of each object in byte order. So what a
//! node is shows in its first members, and no value of JSON is made.

use crate::child::Child;
use crate::function::{Function, ValueType, get_function};
use crate::json;
use crate::read_form::MOST_HEIGHT;
use crate::tree::*;

/// The tree of a form, or `None` where the text is another one: `read_form` then reads it, and tells what is wrong.
pub fn read(form: &str) -> Option<Expr> {
    let mut reader = Reader { rest: form };
    // The nodes above the one that is read, each with what was read of it.
    let mut open: Vec<Open> = Vec::new();
    loop {
        let mut begun = reader.begin()?;
        while let Begun::Whole(expr) = begun {
            begun = match open.pop() {
                Some(above) => reader.go_on(above, expr)?,
                None => return reader.rest.is_empty().then_some(expr),
            };
        }
        if let Begun::Open(above) = begun {
            open.push(above);
        }
        if open.len() == MOST_HEIGHT {
            return None;
        }
    }
}

/// A node whose next child is to be read.
enum Open {
    /// One whose first member is its expression.
    OverExpr,
    Param(AggregateExpr),
    Left {
        return_bool: bool,
    },
    Right {
        return_bool: bool,
        lhs: Child,
        matching: Option<VectorMatching>,
        op: String,
    },
    Call(Vec<Expr>),
}

enum Begun {
    Whole(Expr),
    Open(Open),
}

/// What is left of a text.
struct Reader<'a> {
    rest: &'a str,
}

impl<'a> Reader<'a> {
    /// Takes a text that is next.
    fn eat(&mut self, text: &str) -> bool {
        match self.rest.strip_prefix(text) {
            Some(rest) => {
                self.rest = rest;
                true
            }
            None => false,
        }
    }

    fn must(&mut self, text: &str) -> Option<()> {
        self.eat(text).then_some(())
    }

    /// Reads a node up to its first child, or the whole.
    fn begin(&mut self) -> Option<Begun> {
        if self.eat("{\"matchers\":[") {
            return self.selector().map(Begun::Whole);
        }
        if self.eat("{\"expr\":") {
            return Some(Begun::Open(Open::OverExpr));
        }
        if self.eat("{\"bool\":") {
            let return_bool = self.flag()?;
            self.must(",\"lhs\":")?;
            return Some(Begun::Open(Open::Left { return_bool }));
        }
        if self.eat("{\"args\":[") {
            return if self.eat("]") { self.call_end(Vec::new()) } else { Some(Begun::Open(Open::Call(Vec::new()))) };
        }
        let is_number = self.eat("{\"type\":\"numberLiteral\",\"val\":");
        if !is_number {
            self.must("{\"type\":\"stringLiteral\",\"val\":")?;
        }
        let val = self.text()?;
        self.must("}")?;
        Some(Begun::Whole(if is_number { NumberLiteral { val }.into() } else { StringLiteral { val }.into() }))
    }

    /// Reads a node from the end of this child on, up to the next one or to the end.
    fn go_on(&mut self, above: Open, child: Expr) -> Option<Begun> {
        match above {
            Open::OverExpr => self.after_expr(child),
            Open::Param(it) => self.aggregation_end(AggregateExpr { param: Some(child.into()), ..it }),
            Open::Left { return_bool } => {
                self.must(",\"matching\":")?;
                let matching = if self.eat("null") { None } else { Some(self.matching()?) };
                self.must(",\"op\":")?;
                let op = self.text()?;
                self.must(",\"rhs\":")?;
                Some(Begun::Open(Open::Right { return_bool, lhs: child.into(), matching, op }))
            }
            Open::Right { return_bool, lhs, matching, op } => {
                self.must(",\"type\":\"binaryExpr\"}")?;
                Some(Begun::Whole(BinaryExpr { op, lhs, rhs: child.into(), return_bool, matching }.into()))
            }
            Open::Call(mut args) => {
                args.push(child);
                if self.eat(",") {
                    return Some(Begun::Open(Open::Call(args)));
                }
                self.must("]")?;
                self.call_end(args)
            }
        }
    }

    /// Reads what is after the expression of a node that begins with it.
    fn after_expr(&mut self, expr: Expr) -> Option<Begun> {
        let expr = expr.into();
        if self.eat(",\"grouping\":[") {
            let grouping = self.items(Reader::text)?;
            self.must(",\"op\":")?;
            let it = AggregateExpr { op: self.text()?, expr, param: None, grouping, without: false };
            self.must(",\"param\":")?;
            return if self.eat("null") { self.aggregation_end(it) } else { Some(Begun::Open(Open::Param(it))) };
        }
        if self.eat(",\"offset\":") {
            let offset = self.offset()?;
            self.must(",\"range\":")?;
            let range = self.whole()?;
            let word = self.start_or_end()?;
            self.must(",\"step\":")?;
            let step = if self.eat("null") { None } else { Some(self.whole()?) };
            let at = self.timestamp(word)?;
            self.must(",\"type\":\"subquery\"}")?;
            return Some(Begun::Whole(SubqueryExpr { expr, range, step, offset, at }.into()));
        }
        if self.eat(",\"type\":\"parenExpr\"}") {
            return Some(Begun::Whole(ParenExpr { expr }.into()));
        }
        self.must(",\"op\":\"-\",\"type\":\"unaryExpr\"}")?;
        Some(Begun::Whole(UnaryExpr { expr }.into()))
    }

    fn aggregation_end(&mut self, it: AggregateExpr) -> Option<Begun> {
        self.must(",\"type\":\"aggregation\",\"without\":")?;
        let without = self.flag()?;
        self.must("}")?;
        Some(Begun::Whole(AggregateExpr { without, ..it }.into()))
    }

    fn call_end(&mut self, args: Vec<Expr>) -> Option<Begun> {
        self.must(",\"func\":")?;
        let name = self.function()?.name.to_string();
        self.must(",\"type\":\"call\"}")?;
        Some(Begun::Whole(Call { name, args: args.into() }.into()))
    }

    /// Reads a function, which has to be one of the table.
    fn function(&mut self) -> Option<&'static Function> {
        self.must("{\"argTypes\":[")?;
        let mut arg_types = Reader { rest: self.before(b']')? };
        self.must("],\"experimental\":")?;
        let experimental = self.flag()?;
        self.must(",\"name\":\"")?;
        let function = get_function(self.before(b'"')?)?;
        for (number, it) in function.arg_types.iter().enumerate() {
            if number > 0 {
                arg_types.must(",")?;
            }
            arg_types.value_type(*it)?;
        }
        if !arg_types.rest.is_empty() || experimental != function.experimental {
            return None;
        }
        self.must("\",\"returnType\":")?;
        self.value_type(function.return_type)?;
        self.must(",\"variadic\":")?;
        let sign = if self.eat("-") { -1 } else { 1 };
        let is_same = sign * i128::from(self.whole()?) == i128::from(function.variadic);
        self.must("}")?;
        is_same.then_some(function)
    }

    /// Takes what is before the next such sign of ASCII.
    fn before(&mut self, sign: u8) -> Option<&'a str> {
        let end = self.rest.bytes().position(|it| it == sign)?;
        let (before, rest) = self.rest.split_at(end);
        self.rest = rest;
        Some(before)
    }

    fn value_type(&mut self, value_type: ValueType) -> Option<()> {
        self.must("\"")?;
        self.must(value_type.text())?;
        self.must("\"")
    }

    /// Reads what is after `{"matchers":[`.
    fn selector(&mut self) -> Option<Expr> {
        let matchers = self.items(Reader::matcher)?;
        self.must(",\"name\":")?;
        let name = self.text_or_null()?;
        self.must(",\"offset\":")?;
        let offset = self.offset()?;
        let or_matchers = if self.eat(",\"or_matchers\":[") { self.groups()? } else { Vec::new() };
        let range = if self.eat(",\"range\":") { Some((self.whole()?, self.range_mode()?)) } else { None };
        let word = self.start_or_end()?;
        let at = self.timestamp(word)?;
        let vs = VectorSelector { name, matchers: Matchers { matchers, or_matchers }, offset, at };
        match range {
            Some((range, mode)) => {
                self.must(",\"type\":\"matrixSelector\"}")?;
                Some(MatrixSelector { vs, range, mode }.into())
            }
            None => {
                self.must(",\"type\":\"vectorSelector\"}")?;
                Some(vs.into())
            }
        }
    }

    /// Reads the rest of a list.
    fn items<T>(&mut self, item: impl Fn(&mut Self) -> Option<T>) -> Option<Vec<T>> {
        let mut items = Vec::new();
        if self.eat("]") {
            return Some(items);
        }
        loop {
            items.push(item(self)?);
            if !self.eat(",") {
                break;
            }
        }
        self.must("]")?;
        Some(items)
    }

    /// Reads the rest of a list of groups, of which there is one at least.
    fn groups(&mut self) -> Option<Vec<Vec<Matcher>>> {
        let groups = self.items(|reader| {
            reader.must("[")?;
            reader.items(Reader::matcher)
        })?;
        (!groups.is_empty()).then_some(groups)
    }

    fn matcher(&mut self) -> Option<Matcher> {
        self.must("{\"name\":")?;
        let name = self.text()?;
        self.must(",\"type\":")?;
        let op =
            self.word(&[("\"=\"", MatchOp::Equal), ("\"=~\"", MatchOp::Re), ("\"!=\"", MatchOp::NotEqual), ("\"!~\"", MatchOp::NotRe)])?;
        self.must(",\"value\":")?;
        let value = self.text()?;
        self.must("}")?;
        Some(Matcher { op, name, value })
    }

    fn matching(&mut self) -> Option<VectorMatching> {
        self.must("{\"card\":")?;
        let card = self.cardinality()?;
        self.must(",\"fillValues\":{\"lhs\":")?;
        let lhs = self.text_or_null()?;
        self.must(",\"rhs\":")?;
        let rhs = self.text_or_null()?;
        self.must("},\"include\":[],\"labels\":[")?;
        let labels = self.items(Reader::text)?;
        self.must(",\"on\":")?;
        let on = self.flag()?;
        self.must("}")?;
        Some(VectorMatching { card, on, labels, fill_values: VectorMatchFillValues { lhs, rhs } })
    }

    fn cardinality(&mut self) -> Option<VectorMatchCardinality> {
        let is_many_to_one = self.eat("{\"many-to-one\":[");
        if is_many_to_one || self.eat("{\"one-to-many\":[") {
            let labels = self.items(Reader::text)?;
            self.must("}")?;
            return Some(if is_many_to_one {
                VectorMatchCardinality::ManyToOne(labels)
            } else {
                VectorMatchCardinality::OneToMany(labels)
            });
        }
        if self.eat("\"one-to-one\"") {
            return Some(VectorMatchCardinality::OneToOne);
        }
        self.must("\"many-to-many\"")?;
        Some(VectorMatchCardinality::ManyToMany)
    }

    /// One of these words, with its quotes, as what belongs to it.
    fn word<T: Copy>(&mut self, words: &[(&str, T)]) -> Option<T> {
        words.iter().find(|(word, _)| self.eat(word)).map(|(_, meaning)| *meaning)
    }

    fn range_mode(&mut self) -> Option<RangeMode> {
        if !self.eat(",\"rangeMode\":") {
            return Some(RangeMode::Plain);
        }
        self.word(&[("\"smoothed\"", RangeMode::Smoothed), ("\"anchored\"", RangeMode::Anchored)])
    }

    fn start_or_end(&mut self) -> Option<Option<AtModifier>> {
        self.must(",\"startOrEnd\":")?;
        self.word(&[("null", None), ("\"start\"", Some(AtModifier::Start)), ("\"end\"", Some(AtModifier::End))])
    }

    /// The time after `@`, which has this word.
    fn timestamp(&mut self, word: Option<AtModifier>) -> Option<Option<AtModifier>> {
        self.must(",\"timestamp\":")?;
        if self.eat("null") {
            return Some(word);
        }
        let milliseconds = i64::try_from(self.offset()?).ok()?;
        word.is_none().then_some(Some(AtModifier::At(milliseconds)))
    }

    fn flag(&mut self) -> Option<bool> {
        self.word(&[("false", false), ("true", true)])
    }

    /// A whole number from 0 to 2^64 - 1.
    fn whole(&mut self) -> Option<u64> {
        let bytes = self.rest.as_bytes();
        let count = bytes.iter().take_while(|it| it.is_ascii_digit()).count();
        if count == 0 || count > 1 && bytes[0] == b'0' {
            return None;
        }
        let (digits, rest) = self.rest.split_at(count);
        self.rest = rest;
        digits.parse().ok()
    }

    /// A whole number from -2^63 to 2^64 - 1.
    fn offset(&mut self) -> Option<i128> {
        let is_negative = self.eat("-");
        let number = i128::from(self.whole()?);
        match is_negative {
            false => Some(number),
            true => (1..=1 << 63).contains(&number).then_some(-number),
        }
    }

    fn text_or_null(&mut self) -> Option<Option<String>> {
        if self.eat("null") { Some(None) } else { self.text().map(Some) }
    }

    fn text(&mut self) -> Option<String> {
        let (text, rest) = json::read_string(self.rest)?;
        self.rest = rest;
        Some(text.into_owned())
    }
}
