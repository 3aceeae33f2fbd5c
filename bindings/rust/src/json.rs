//! Values of JSON: no more than the form of a query needs.

use std::borrow::Cow;

/// A text of JSON as the list of its values, each before those within it. So no text makes it deep, and it is dropped without recursion.
pub struct Json<'a> {
    entries: Vec<Entry<'a>>,
}

/// A value without those within it. An array or an object has the number of the entry after its last one; the entries of an object are
/// names and values in turn. A number is its text.
enum Entry<'a> {
    Null,
    Bool(bool),
    Number(&'a str),
    String(Cow<'a, str>),
    Array(usize),
    Object(usize),
}

/// A value of JSON.
#[derive(Clone, Copy)]
pub enum Value<'a> {
    Null,
    Bool(bool),
    Number(&'a str),
    String(&'a str),
    Array(Values<'a>),
    Object(Values<'a>),
}

/// The items of an array, or the names and values of an object in turn.
#[derive(Clone, Copy)]
pub struct Values<'a> {
    entries: &'a [Entry<'a>],
    next: usize,
    end: usize,
}

impl<'a> Json<'a> {
    /// The value of the text.
    pub fn value(&'a self) -> Value<'a> {
        value_at(&self.entries, 0).0
    }
}

/// The value at an entry, and the number of the entry after it.
fn value_at<'a>(entries: &'a [Entry<'a>], at: usize) -> (Value<'a>, usize) {
    let within = |end: usize| Values { entries, next: at + 1, end };
    match &entries[at] {
        Entry::Null => (Value::Null, at + 1),
        Entry::Bool(flag) => (Value::Bool(*flag), at + 1),
        Entry::Number(text) => (Value::Number(text), at + 1),
        Entry::String(text) => (Value::String(text), at + 1),
        Entry::Array(end) => (Value::Array(within(*end)), *end),
        Entry::Object(end) => (Value::Object(within(*end)), *end),
    }
}

impl<'a> Iterator for Values<'a> {
    type Item = Value<'a>;

    fn next(&mut self) -> Option<Value<'a>> {
        if self.next == self.end {
            return None;
        }
        let (value, after) = value_at(self.entries, self.next);
        self.next = after;
        Some(value)
    }
}

impl<'a> Values<'a> {
    /// The names of an object with their values.
    pub fn members(mut self) -> impl Iterator<Item = (&'a str, Value<'a>)> {
        std::iter::from_fn(move || match self.next()? {
            Value::String(name) => Some((name, self.next()?)),
            _ => None,
        })
    }
}

/// The value of a text, or `None` where it is no JSON.
pub fn read(text: &str) -> Option<Json<'_>> {
    let mut reader = Reader { rest: text, entries: Vec::new(), open: Vec::new() };
    reader.value()?;
    while let Some(&container) = reader.open.last() {
        reader.item(container)?;
    }
    reader.skip_space();
    reader.rest.is_empty().then_some(Json { entries: reader.entries })
}

/// The string that a text begins with, and what is after it.
pub fn read_string(text: &str) -> Option<(Cow<'_, str>, &str)> {
    let mut reader = Reader { rest: text, entries: Vec::new(), open: Vec::new() };
    let string = reader.string()?;
    Some((string, reader.rest))
}

/// What is left of a text, the values that were read of it, and the numbers of the arrays and objects that have no end yet.
struct Reader<'a> {
    rest: &'a str,
    entries: Vec<Entry<'a>>,
    open: Vec<usize>,
}

impl<'a> Reader<'a> {
    fn skip_space(&mut self) {
        self.rest = self.rest.trim_start_matches([' ', '\t', '\n', '\r']);
    }

    /// Takes a text that is next.
    fn eat(&mut self, text: &str) -> bool {
        let rest = self.rest.strip_prefix(text);
        self.rest = rest.unwrap_or(self.rest);
        rest.is_some()
    }

    /// Takes a value, of an array or an object its first sign alone.
    fn value(&mut self) -> Option<()> {
        self.skip_space();
        let entry = match self.rest.bytes().next()? {
            b'{' => self.begin("{", Entry::Object(0)),
            b'[' => self.begin("[", Entry::Array(0)),
            b'"' => Entry::String(self.string()?),
            b'-' | b'0'..=b'9' => Entry::Number(self.number()?),
            _ if self.eat("null") => Entry::Null,
            _ if self.eat("true") => Entry::Bool(true),
            _ if self.eat("false") => Entry::Bool(false),
            _ => return None,
        };
        self.entries.push(entry);
        Some(())
    }

    /// Takes the sign that opens an array or an object, whose end is not known yet.
    fn begin(&mut self, sign: &str, entry: Entry<'a>) -> Entry<'a> {
        self.eat(sign);
        self.open.push(self.entries.len());
        entry
    }

    /// Takes the next item of the innermost array or object, or its closing sign.
    fn item(&mut self, container: usize) -> Option<()> {
        self.skip_space();
        let end = self.entries.len();
        let is_object = matches!(self.entries[container], Entry::Object(_));
        if self.eat(if is_object { "}" } else { "]" }) {
            self.entries[container] = if is_object { Entry::Object(end) } else { Entry::Array(end) };
            self.open.pop();
            return Some(());
        }
        let is_first = end == container + 1;
        if !is_first && !self.eat(",") {
            return None;
        }
        if is_object {
            self.name()?;
        }
        self.value()
    }

    /// Takes the name of a member, and the colon after it.
    fn name(&mut self) -> Option<()> {
        self.skip_space();
        let name = self.string()?;
        self.entries.push(Entry::String(name));
        self.skip_space();
        self.eat(":").then_some(())
    }

    fn number(&mut self) -> Option<&'a str> {
        let end = self.rest.find(|it: char| !it.is_ascii_alphanumeric() && !"+-.".contains(it)).unwrap_or(self.rest.len());
        let (number, rest) = self.rest.split_at(end);
        self.rest = rest;
        is_number(number).then_some(number)
    }

    fn string(&mut self) -> Option<Cow<'a, str>> {
        if !self.eat("\"") {
            return None;
        }
        let mut text = Cow::Borrowed("");
        loop {
            let end = self.rest.bytes().position(is_escaped)?;
            // (a text without escapes is not copied)
            text += &self.rest[..end];
            self.rest = &self.rest[end..];
            if self.eat("\"") {
                return Some(text);
            }
            if !self.eat("\\") {
                return None;
            }
            text.to_mut().push(self.escaped()?);
        }
    }

    /// The character of an escape, after its backslash.
    fn escaped(&mut self) -> Option<char> {
        let sign = self.rest.chars().next()?;
        self.rest = &self.rest[sign.len_utf8()..];
        match sign {
            '"' | '\\' | '/' => Some(sign),
            'b' => Some('\u{8}'),
            'f' => Some('\u{c}'),
            'n' => Some('\n'),
            'r' => Some('\r'),
            't' => Some('\t'),
            'u' => self.unit(),
            _ => None,
        }
    }

    fn unit(&mut self) -> Option<char> {
        let first = self.hex()?;
        if !(0xd800..0xdc00).contains(&first) {
            return char::from_u32(first);
        }
        if !self.eat("\\u") {
            return None;
        }
        let second = self.hex()?;
        if !(0xdc00..0xe000).contains(&second) {
            return None;
        }
        char::from_u32(0x10000 + ((first - 0xd800) << 10) + (second - 0xdc00))
    }

    fn hex(&mut self) -> Option<u32> {
        let digits = self.rest.get(..4)?;
        self.rest = &self.rest[4..];
        digits.bytes().all(|it| it.is_ascii_hexdigit()).then(|| u32::from_str_radix(digits, 16).ok())?
    }
}

/// Whether this is a number as JSON has it.
fn is_number(text: &str) -> bool {
    let text = text.strip_prefix('-').unwrap_or(text);
    let (number, exponent) = match text.find(['e', 'E']) {
        Some(at) => {
            let exponent = &text[at + 1..];
            (&text[..at], Some(exponent.strip_prefix(['+', '-']).unwrap_or(exponent)))
        }
        None => (text, None),
    };
    let (whole, fraction) = match number.find('.') {
        Some(at) => (&number[..at], Some(&number[at + 1..])),
        None => (number, None),
    };
    let digits = |it: &str| !it.is_empty() && it.bytes().all(|digit| digit.is_ascii_digit());
    let has_whole = digits(whole) && (whole == "0" || !whole.starts_with('0'));
    has_whole && fraction.map_or(true, digits) && exponent.map_or(true, digits)
}

/// Whether a string has no such byte as it is.
fn is_escaped(byte: u8) -> bool {
    byte == b'"' || byte == b'\\' || byte < b' '
}

/// Writes a string with its quotes.
pub fn write_string(out: &mut String, text: &str) {
    let mut rest = text;
    out.push('"');
    while let Some(end) = rest.bytes().position(is_escaped) {
        out.push_str(&rest[..end]);
        write_escape(out, rest.as_bytes()[end]);
        rest = &rest[end + 1..];
    }
    out.push_str(rest);
    out.push('"');
}

fn write_escape(out: &mut String, byte: u8) {
    let sign = match byte {
        b'"' => '"',
        b'\\' => '\\',
        8 => 'b',
        b'\t' => 't',
        b'\n' => 'n',
        12 => 'f',
        b'\r' => 'r',
        _ => return out.push_str(&format!("\\u{byte:04x}")),
    };
    out.extend(['\\', sign]);
}

/// Writes a whole number.
pub fn write_whole(out: &mut String, number: u64) {
    // (2^64 - 1 has 20 digits)
    let mut digits = [0; 20];
    let mut start = digits.len();
    let mut left = number;
    while left > 0 || start == digits.len() {
        start -= 1;
        digits[start] = b'0' + (left % 10) as u8;
        left /= 10;
    }
    out.extend(digits[start..].iter().map(|digit| char::from(*digit)));
}
