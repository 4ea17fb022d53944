//! Values, and entries with their comments.

use crate::decimal::{Decimal, Size};
use crate::text::Text;
use std::fmt;
use widrekas_sys::Asked;

/// The value of a card, of one of six kinds. An `i64`, a `bool`, a `str`, a `String`, an `f64`, a [`Text`] and a [`Decimal`] can be made
/// one by `into()`, for [`write`](crate::write).
#[derive(Clone, Debug, PartialEq, Eq)]
pub enum Value {
    /// FITS Standard 4.0, section 4.2.3: an integer that fits 64 signed bits.
    Integer(i64),
    /// Section 4.2.4: any other number.
    Float(Decimal),
    /// Section 4.2.2, by the first letter alone.
    Logical(bool),
    /// Section 4.2.1: a string, joined with the CONTINUE cards behind it.
    String(Text),
    /// Section 4.1.2.3: a value field of spaces.
    Undefined,
    /// What is none of these, with its whole raw text; or what begins as a number and is none, with every D made an E.
    Invalid(Text),
}

impl Value {
    /// The value of a kind's number, with what stands beside it.
    pub(crate) fn told(kind: usize, flag: bool, number: i64, digits: &[u8], text: &[u8]) -> Self {
        match kind {
            1 => Value::Integer(number),
            2 => Value::Float(Decimal::new(flag, Size::Finite(Text::new(digits), number))),
            3 => Value::Float(Decimal::new(flag, Size::Infinite)),
            4 => Value::Float(Decimal::new(flag, Size::Nan)),
            5 => Value::Logical(flag),
            6 => Value::String(Text::new(text)),
            7 => Value::Undefined,
            _ => Value::Invalid(Text::new(text)),
        }
    }

    /// The value by its kind's number, with what stands beside it.
    pub(crate) fn asked(&self) -> Asked<'_> {
        let (kind, flag, number, text): (_, _, _, &[u8]) = match self {
            Value::Integer(number) => (1, false, *number, b""),
            Value::Float(decimal) if decimal.is_infinite() => (3, decimal.is_negative(), 0, b""),
            Value::Float(decimal) if decimal.is_nan() => (4, decimal.is_negative(), 0, b""),
            Value::Float(decimal) => (2, decimal.is_negative(), decimal.power(), decimal.digits()),
            Value::Logical(truth) => (5, *truth, 0, b""),
            Value::String(text) => (6, false, 0, text.as_bytes()),
            Value::Undefined => (7, false, 0, b""),
            Value::Invalid(text) => (8, false, 0, text.as_bytes()),
        };
        Asked { kind, flag, number, text }
    }

    /// The text, taken over, of a string alone.
    pub(crate) fn into_string(self) -> Option<String> {
        match self {
            Value::String(text) => Some(text.into()),
            _ => None,
        }
    }

    /// The integer, of an integer alone.
    pub fn as_i64(&self) -> Option<i64> {
        match self {
            Value::Integer(number) => Some(*number),
            _ => None,
        }
    }

    /// The nearest 64-bit float, of a float or an integer.
    pub fn as_f64(&self) -> Option<f64> {
        match self {
            Value::Integer(number) => Some(*number as f64),
            Value::Float(decimal) => Some(decimal.to_f64()),
            _ => None,
        }
    }

    /// The truth, of a logical value alone.
    pub fn as_bool(&self) -> Option<bool> {
        match self {
            Value::Logical(truth) => Some(*truth),
            _ => None,
        }
    }

    /// The text, of a string alone.
    pub fn as_str(&self) -> Option<&str> {
        match self {
            Value::String(text) => Some(text),
            _ => None,
        }
    }
}

impl From<i64> for Value {
    fn from(number: i64) -> Value {
        Value::Integer(number)
    }
}

impl From<bool> for Value {
    fn from(truth: bool) -> Value {
        Value::Logical(truth)
    }
}

/// The shortest decimal that reads back as the same float: [`Decimal::from`].
impl From<f64> for Value {
    fn from(float: f64) -> Value {
        Value::Float(float.into())
    }
}

impl From<Decimal> for Value {
    fn from(decimal: Decimal) -> Value {
        Value::Float(decimal)
    }
}

impl From<&str> for Value {
    fn from(text: &str) -> Value {
        Value::String(text.into())
    }
}

impl From<String> for Value {
    fn from(text: String) -> Value {
        Value::String(text.into())
    }
}

impl From<Text> for Value {
    fn from(text: Text) -> Value {
        Value::String(text)
    }
}

/// The reading as the program `cards` prints it; nothing where it is undefined.
impl fmt::Display for Value {
    fn fmt(&self, f: &mut fmt::Formatter<'_>) -> fmt::Result {
        match self {
            Value::Integer(number) => number.fmt(f),
            Value::Float(decimal) => decimal.fmt(f),
            Value::Logical(truth) => f.pad(if *truth { "T" } else { "F" }),
            Value::String(text) | Value::Invalid(text) => text.fmt(f),
            Value::Undefined => f.pad(""),
        }
    }
}

/// A value with its comment. An undefined and an invalid value have none.
#[derive(Clone, Debug, PartialEq, Eq)]
pub struct Entry {
    /// The value.
    pub value: Value,
    /// The comment; present and empty where nothing follows the slash, which differs from absent.
    pub comment: Option<Text>,
}

impl Entry {
    /// The unit (section 4.3.2): what stands between the brackets with which the comment begins, as in `/[s] time`. One space before
    /// them, which the standard recommends, is passed over: `/ [s] time`.
    ///
    /// [`Entry::unit_as_fitsrs`] finds no unit behind a space.
    pub fn unit(&self) -> Option<Text> {
        let comment = self.comment.as_ref()?.as_bytes();
        let mut start = 1;
        let end = widrekas_sys::unit_past_space(comment, &mut start);
        // 0, where there is no unit, is before the start.
        comment.get(start..end).map(Text::new)
    }

    /// The unit as fitsrs 0.4.1 reads it: the bracket must be the comment's first byte, so `/ [s] time` has none. Where there is one,
    /// [`Entry::unit`] is the same.
    pub fn unit_as_fitsrs(&self) -> Option<Text> {
        let comment = self.comment.as_ref()?.as_bytes();
        comment.get(1..widrekas_sys::unit(comment)).map(Text::new)
    }
}
