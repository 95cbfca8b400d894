//! Values in a type.
use bstr::{BStr, BString};

use crate::file::{names, File};
use crate::sys::{self, number};

/// Why a value is not of the type.
#[derive(Clone, Debug, PartialEq, Eq, thiserror::Error)]
#[error("Could not decode '{input}': {message}")]
pub struct Error {
    /// What is wrong.
    pub message: &'static str,
    /// The value.
    pub input: BString,
}

impl Error {
    /// The number of the error in docs/refusals.md.
    pub(crate) const NUMBER: u32 = number::BAD_VALUE;

    /// That a value is wrong, by what is.
    #[must_use]
    pub fn new(message: &'static str, input: impl Into<BString>) -> Self {
        let input = input.into();
        Error { message, input }
    }
}

/// A file that has this value alone, and its key: the library takes values of files.
pub(crate) fn file_of(value: &BStr) -> (File, sys::Key<'static>) {
    let (mut file, key) = (File::default(), names("value", None, "of"));
    let set = file.sys.set_value(&key, value);
    set.unwrap_or_else(|number| sys::unforeseen(number));
    (file, key)
}

/// A value in a type, of what the library answers; one of another type is told with its text.
fn of_type<T>(found: Result<T, u32>, message: &'static str, value: &BStr) -> Result<T, Error> {
    found.map_err(|number| match number {
        Error::NUMBER => Error::new(message, value),
        number => sys::unforeseen(number),
    })
}

/// A value as an integer, times its suffix.
pub(crate) fn integer_of(value: &BStr) -> Result<i64, Error> {
    of_type(sys::integer_of(value), "not an integer", value)
}

/// A boolean, as git takes it.
#[derive(Clone, Copy, Debug, Default, PartialEq, Eq, PartialOrd, Ord, Hash)]
pub struct Boolean(pub bool);

impl TryFrom<&BStr> for Boolean {
    type Error = Error;

    fn try_from(value: &BStr) -> Result<Self, Error> {
        of_type(sys::boolean_of(value), "not a boolean", value).map(Boolean)
    }
}

impl TryFrom<BString> for Boolean {
    type Error = Error;

    fn try_from(value: BString) -> Result<Self, Error> {
        Boolean::try_from(<&BStr>::from(value.as_slice()))
    }
}

impl From<Boolean> for bool {
    fn from(value: Boolean) -> bool {
        value.0
    }
}
