//! The members of an object of a form.

use crate::json::Value;
use std::collections::BTreeMap;
use std::str::FromStr;

/// What is wrong in a part of a form.
pub struct Fault {
    /// Where, from the part on, as `.range`.
    pub path: String,
    pub message: String,
}

pub type Read<T> = Result<T, Fault>;

impl Fault {
    /// A fault of the whole part.
    pub fn here(message: &str) -> Fault {
        Fault { path: String::new(), message: message.to_string() }
    }

    /// The fault of the part that this one is a member of.
    pub fn of_member(mut self, name: &str) -> Fault {
        self.path = format!(".{name}{}", self.path);
        self
    }

    /// The fault of the list that this part is an item of.
    fn of_item(mut self, number: usize) -> Fault {
        self.path = format!("[{number}]{}", self.path);
        self
    }
}

/// The members of an object that were not read.
pub struct Members<'a> {
    left: BTreeMap<&'a str, Value<'a>>,
}

impl<'a> Members<'a> {
    pub fn of(value: Value<'a>) -> Read<Members<'a>> {
        let values = match value {
            Value::Object(values) => values,
            _ => return Err(Fault::here("expected an object")),
        };
        let mut left = BTreeMap::new();
        for (name, value) in values.members() {
            if left.insert(name, value).is_some() {
                return Err(Fault::here("expected such a member once").of_member(name));
            }
        }
        Ok(Members { left })
    }

    pub fn fault<T>(&self, name: &str, message: &str) -> Read<T> {
        Err(Fault::here(message).of_member(name))
    }

    pub fn has(&self, name: &str) -> bool {
        self.left.contains_key(name)
    }

    /// Whether a member is there, and null.
    pub fn has_null(&self, name: &str) -> bool {
        matches!(self.left.get(name), Some(Value::Null))
    }

    pub fn take(&mut self, name: &str) -> Read<Value<'a>> {
        match self.left.remove(name) {
            Some(value) => Ok(value),
            None => self.fault(name, "expected such a member"),
        }
    }

    /// The same, or `None` for null.
    pub fn take_or_null(&mut self, name: &str) -> Read<Option<Value<'a>>> {
        Ok(match self.take(name)? {
            Value::Null => None,
            value => Some(value),
        })
    }

    pub fn end(self) -> Read<()> {
        match self.left.keys().next() {
            Some(name) => self.fault(name, "unknown member"),
            None => Ok(()),
        }
    }

    pub fn text(&mut self, name: &str) -> Read<String> {
        match self.take(name)? {
            Value::String(text) => Ok(text.to_string()),
            _ => self.fault(name, "expected a string"),
        }
    }

    pub fn text_or_null(&mut self, name: &str) -> Read<Option<String>> {
        match self.take(name)? {
            Value::Null => Ok(None),
            Value::String(text) => Ok(Some(text.to_string())),
            _ => self.fault(name, "expected a string or null"),
        }
    }

    pub fn flag(&mut self, name: &str) -> Read<bool> {
        match self.take(name)? {
            Value::Bool(flag) => Ok(flag),
            _ => self.fault(name, "expected true or false"),
        }
    }

    /// What an object that is a member has.
    pub fn object<T>(&mut self, name: &str, read: impl FnOnce(Members<'a>) -> Read<T>) -> Read<T> {
        let value = self.take(name)?;
        Members::of(value).and_then(read).map_err(|fault| fault.of_member(name))
    }

    /// The values of a list.
    pub fn list(&mut self, name: &str) -> Read<Vec<Value<'a>>> {
        match self.take(name)? {
            Value::Array(values) => Ok(values.collect()),
            _ => self.fault(name, "expected a list"),
        }
    }

    /// The items of a list, each read.
    pub fn items<T>(&mut self, name: &str, read: impl Fn(Value<'a>) -> Read<T>) -> Read<Vec<T>> {
        let value = self.take(name)?;
        items_of(value, read).map_err(|fault| fault.of_member(name))
    }

    pub fn texts(&mut self, name: &str) -> Read<Vec<String>> {
        self.items(name, |item| match item {
            Value::String(text) => Ok(text.to_string()),
            _ => Err(Fault::here("expected a string")),
        })
    }

    /// One of these words, as what belongs to it.
    pub fn word<T: Copy>(&mut self, name: &str, words: &[(&str, T)]) -> Read<T> {
        let value = self.take(name)?;
        let found = words.iter().find(|(word, _)| matches!(value, Value::String(text) if text == *word));
        match found {
            Some((_, meaning)) => Ok(*meaning),
            None => {
                let known: Vec<&str> = words.iter().map(|(word, _)| *word).collect();
                self.fault(name, &format!("expected one of {}", known.join(", ")))
            }
        }
    }

    pub fn number<T: FromStr>(&mut self, name: &str, expected: &str) -> Read<T> {
        let value = self.take(name)?;
        match number_of(value) {
            Some(number) => Ok(number),
            None => self.fault(name, expected),
        }
    }

    pub fn number_or_null<T: FromStr>(&mut self, name: &str, expected: &str) -> Read<Option<T>> {
        match self.take_or_null(name)? {
            Some(value) => match number_of(value) {
                Some(number) => Ok(Some(number)),
                None => self.fault(name, expected),
            },
            None => Ok(None),
        }
    }
}

/// The items of a list, each read.
pub fn items_of<'a, T>(value: Value<'a>, read: impl Fn(Value<'a>) -> Read<T>) -> Read<Vec<T>> {
    match value {
        Value::Array(values) => {
            let read_item = |(number, item)| read(item).map_err(|fault| fault.of_item(number));
            values.enumerate().map(read_item).collect()
        }
        _ => Err(Fault::here("expected a list")),
    }
}

fn number_of<T: FromStr>(value: Value<'_>) -> Option<T> {
    match value {
        Value::Number(text) => text.parse().ok(),
        _ => None,
    }
}
