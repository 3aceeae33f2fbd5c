//! The functions of the language.

use crate::function_table::TABLE;
use std::fmt;

/// The type of an expression's value.
#[derive(Clone, Copy, Debug, PartialEq, Eq, Hash)]
pub enum ValueType {
    /// Series with one sample each.
    Vector,
    /// A number.
    Scalar,
    /// Series with the samples of a range of time.
    Matrix,
    /// A string.
    String,
}

impl ValueType {
    pub(crate) const fn text(self) -> &'static str {
        match self {
            ValueType::Vector => "vector",
            ValueType::Scalar => "scalar",
            ValueType::Matrix => "matrix",
            ValueType::String => "string",
        }
    }
}

impl fmt::Display for ValueType {
    fn fmt(&self, f: &mut fmt::Formatter<'_>) -> fmt::Result {
        f.write_str(self.text())
    }
}

/// A function of the language.
#[derive(Clone, Copy, Debug, PartialEq, Eq, Hash)]
pub struct Function {
    /// Its name.
    pub name: &'static str,
    /// The types of its arguments, in order.
    pub arg_types: &'static [ValueType],
    /// How many arguments may be given (`docs/reference/functions.md` of the repository, "Looking up").
    pub variadic: i32,
    /// The type of its value.
    pub return_type: ValueType,
    /// Whether it is experimental.
    pub experimental: bool,
}

/// The function of this name.
pub fn get_function(name: &str) -> Option<&'static Function> {
    // (the table is in the order of names)
    TABLE.binary_search_by(|function| function.name.cmp(name)).ok().map(|number| &TABLE[number])
}
