//! Integers with their suffixes.
use std::fmt;

use bstr::{BStr, BString, ByteSlice};

use crate::value::{integer_of, Error};

/// What is behind an integer: what it is multiplied by.
#[derive(Clone, Copy, Debug, PartialEq, Eq, PartialOrd, Ord, Hash)]
pub enum Suffix {
    /// `k`: 1,024.
    Kibi,
    /// `m`: 1,024 times 1,024.
    Mebi,
    /// `g`: 1,024 times 1,024 times 1,024.
    Gibi,
}

impl Suffix {
    /// The power of two that it multiplies by.
    #[must_use]
    pub fn bitwise_offset(self) -> usize {
        match self {
            Suffix::Kibi => 10,
            Suffix::Mebi => 20,
            Suffix::Gibi => 30,
        }
    }
}

/// An integer as it is written: a number, and what it is multiplied by.
#[derive(Clone, Copy, Debug, PartialEq, Eq, PartialOrd, Ord, Hash)]
pub struct Integer {
    /// The number before the suffix.
    pub value: i64,
    /// The suffix, if there is one.
    pub suffix: Option<Suffix>,
}

impl Integer {
    /// The number times its suffix, if 64 bits hold it.
    #[must_use]
    pub fn to_decimal(&self) -> Option<i64> {
        let factor = self.suffix.map_or(1, |it| 1 << it.bitwise_offset());
        self.value.checked_mul(factor)
    }
}

impl TryFrom<&BStr> for Integer {
    type Error = Error;

    fn try_from(text: &BStr) -> Result<Self, Error> {
        let bytes: &[u8] = text;
        let (number, suffix) = match bytes.split_last() {
            Some((b'k' | b'K', number)) => (number, Some(Suffix::Kibi)),
            Some((b'm' | b'M', number)) => (number, Some(Suffix::Mebi)),
            Some((b'g' | b'G', number)) => (number, Some(Suffix::Gibi)),
            _ => (bytes, None),
        };
        let is_number = number.last().map_or(false, u8::is_ascii_digit);
        let value = match integer_of(number.as_bstr()) {
            Ok(value) if is_number => value,
            _ => return Err(Error::new("not an integer", text)),
        };
        Ok(Integer { value, suffix })
    }
}

impl TryFrom<BString> for Integer {
    type Error = Error;

    fn try_from(text: BString) -> Result<Self, Error> {
        Integer::try_from(text.as_bstr())
    }
}

impl fmt::Display for Integer {
    fn fmt(&self, f: &mut fmt::Formatter<'_>) -> fmt::Result {
        let suffix = match self.suffix {
            Some(Suffix::Kibi) => "k",
            Some(Suffix::Mebi) => "m",
            Some(Suffix::Gibi) => "g",
            None => "",
        };
        write!(f, "{}{suffix}", self.value)
    }
}
