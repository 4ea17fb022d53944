//! Texts, byte for byte.

use std::borrow::Borrow;
use std::fmt;
use std::ops::Deref;

/// A name, a string, a comment or another text of a header: its bytes as they stand.
///
/// Every byte of an accepted card is below 128 ([`HighByte`](crate::Reason::HighByte)), so a text is ASCII and is a `str`. It gives
/// one without a test: `&*text`, [`Text::as_str`], `String::from(text)`; and `entry.comment.as_deref()` is an `Option<&str>`.
///
/// A program can make a text of any `str`: `Text::from("FKM-75")`. Such a text need not be ASCII, and [`write`](crate::write) says
/// whether it can stand on cards.
///
/// In a string or a comment, the byte 127 stands for a character that FITS does not allow, and in a comment byte 10 for the seam
/// between two cards. A name and an [invalid](crate::Value::Invalid) text may have any byte below 128, a line feed or ESC too:
/// `{:?}` shows those escaped, `{}` as they stand.
#[derive(Clone, Default, PartialEq, Eq, Hash, PartialOrd, Ord)]
pub struct Text(String);

impl Text {
    /// The text of bytes below 128. They are tested as UTF-8 once, here; any other byte would become U+FFFD.
    pub(crate) fn new(bytes: &[u8]) -> Self {
        match std::str::from_utf8(bytes) {
            Ok(text) => Text(text.to_owned()),
            Err(_) => Text(String::from_utf8_lossy(bytes).into_owned()),
        }
    }

    /// The text as a `str`.
    pub fn as_str(&self) -> &str {
        &self.0
    }

    /// The text, taken over.
    pub fn into_string(self) -> String {
        self.0
    }

    /// The bytes.
    pub fn as_bytes(&self) -> &[u8] {
        self.0.as_bytes()
    }

    /// The bytes, taken over.
    pub fn into_bytes(self) -> Vec<u8> {
        self.0.into_bytes()
    }
}

impl Deref for Text {
    type Target = str;

    fn deref(&self) -> &str {
        &self.0
    }
}

impl AsRef<str> for Text {
    fn as_ref(&self) -> &str {
        &self.0
    }
}

impl AsRef<[u8]> for Text {
    fn as_ref(&self) -> &[u8] {
        self.0.as_bytes()
    }
}

/// Texts are equal, ordered and hashed as their `str`s are.
impl Borrow<str> for Text {
    fn borrow(&self) -> &str {
        &self.0
    }
}

/// The text of a `str`, whatever its characters are.
impl From<&str> for Text {
    fn from(text: &str) -> Text {
        Text(text.to_owned())
    }
}

/// The text of a `String`, taken over.
impl From<String> for Text {
    fn from(text: String) -> Text {
        Text(text)
    }
}

impl From<Text> for String {
    fn from(text: Text) -> String {
        text.0
    }
}

impl PartialEq<str> for Text {
    fn eq(&self, other: &str) -> bool {
        self.0 == other
    }
}

impl PartialEq<&str> for Text {
    fn eq(&self, other: &&str) -> bool {
        self.0 == *other
    }
}

impl PartialEq<Text> for str {
    fn eq(&self, other: &Text) -> bool {
        self == other.0
    }
}

impl PartialEq<Text> for &str {
    fn eq(&self, other: &Text) -> bool {
        *self == other.0
    }
}

/// The text as it stands.
impl fmt::Display for Text {
    fn fmt(&self, f: &mut fmt::Formatter<'_>) -> fmt::Result {
        f.pad(&self.0)
    }
}

/// The text within quotes, with what is not printable escaped.
impl fmt::Debug for Text {
    fn fmt(&self, f: &mut fmt::Formatter<'_>) -> fmt::Result {
        write!(f, "\"{}\"", self.0.as_bytes().escape_ascii())
    }
}
