//! Texts that are read, and names that are written into them.

use std::convert::Infallible;

use bstr::BString;

/// A text that can be read, of which [`File::from_parse_events_no_includes`] makes a file.
///
/// [`File::from_parse_events_no_includes`]: crate::File::from_parse_events_no_includes
#[derive(Clone, Debug, Default, PartialEq, Eq)]
pub struct Events {
    pub(crate) text: BString,
}

impl Events {
    /// Those of a text. No filter can be given: [`init::Options`] says that whitespace and comments are left out.
    ///
    /// # Errors
    ///
    /// The text can't be read on at some place, or is too long.
    ///
    /// [`init::Options`]: crate::file::init::Options
    pub fn from_bytes(input: &[u8], filter: Option<Infallible>) -> Result<Self, Error> {
        if let Some(none) = filter {
            match none {}
        }
        crate::File::parsed(input)?;
        let text = input.into();
        Ok(Events { text })
    }

    /// Those of a text.
    ///
    /// # Errors
    ///
    /// Those of [`Events::from_bytes`].
    #[allow(clippy::should_implement_trait)]
    pub fn from_str(input: &str) -> Result<Self, Error> {
        Events::from_bytes(input.as_bytes(), None)
    }
}

impl TryFrom<&str> for Events {
    type Error = Error;

    fn try_from(input: &str) -> Result<Self, Error> {
        Events::from_str(input)
    }
}

impl TryFrom<&[u8]> for Events {
    type Error = Error;

    fn try_from(input: &[u8]) -> Result<Self, Error> {
        Events::from_bytes(input, None)
    }
}

/// Why a text can't be read on, and where: line and column, in bytes, count from 1.
#[derive(Clone, Debug, PartialEq, Eq, thiserror::Error)]
#[error("line {line}, column {column}: {reason}")]
pub struct Error {
    pub(crate) number: u32,
    pub(crate) line: usize,
    pub(crate) column: usize,
    pub(crate) reason: &'static str,
    remaining: BString,
}

impl Error {
    /// The line, from 1.
    #[must_use]
    pub fn line_number(&self) -> usize {
        self.line
    }

    /// The column in bytes, from 1.
    #[must_use]
    pub fn column(&self) -> usize {
        self.column
    }

    /// What is left of the text from there on.
    #[must_use]
    pub fn remaining_data(&self) -> &[u8] {
        &self.remaining
    }

    /// The number of the error in docs/refusals.md: 2 for a text that is too long, else 1.
    #[must_use]
    pub fn number(&self) -> u32 {
        self.number
    }

    /// What a refused text comes to.
    pub(crate) fn of((number, place): (u32, crate::sys::Place), text: &[u8]) -> Self {
        let remaining = text.get(place.offset..).unwrap_or_default();
        Error {
            remaining: remaining.into(),
            number,
            line: place.line,
            column: place.column,
            reason: crate::sys::words(number),
        }
    }
}

/// Where the parts of a file lie.
pub mod span {
    /// Why a file isn't changed: it would be too long.
    #[derive(Clone, Copy, Debug, PartialEq, Eq, PartialOrd, Ord, thiserror::Error)]
    #[error("{}", crate::sys::words(Error::NUMBER))]
    pub struct Error;

    impl Error {
        pub(crate) const NUMBER: u32 = crate::sys::number::SPAN_TOO_LARGE;

        /// The number of the error in docs/refusals.md.
        #[must_use]
        pub fn number(&self) -> u32 {
            Error::NUMBER
        }
    }
}

/// Names of sections and values.
pub mod section {
    use std::fmt;
    use std::ops::Deref;

    use bstr::{BStr, BString, ByteSlice};

    /// Whether a section can be made of the names.
    fn made(name: &str, subsection_name: Option<&BStr>) -> Result<(), header::Error> {
        let mut file = crate::File::default();
        let made = file.new_section(name, subsection_name.map(BString::from));
        made.map(drop)
    }

    /// The name of a section that can be made. Equal ones are so without ASCII case.
    #[derive(Clone, Debug, Eq)]
    pub struct Name(BString);

    impl PartialEq for Name {
        fn eq(&self, other: &Self) -> bool {
            self.0.eq_ignore_ascii_case(&other.0)
        }
    }

    impl Deref for Name {
        type Target = BStr;

        fn deref(&self) -> &BStr {
            self.0.as_bstr()
        }
    }

    impl fmt::Display for Name {
        fn fmt(&self, f: &mut fmt::Formatter<'_>) -> fmt::Result {
            fmt::Display::fmt(&**self, f)
        }
    }

    impl TryFrom<&str> for Name {
        type Error = name::Error;

        fn try_from(name: &str) -> Result<Self, name::Error> {
            match made(name, None) {
                Ok(()) => Ok(Name(name.into())),
                Err(_) => Err(name::Error),
            }
        }
    }

    impl TryFrom<String> for Name {
        type Error = name::Error;

        fn try_from(name: String) -> Result<Self, name::Error> {
            Name::try_from(name.as_str())
        }
    }

    /// Names of sections.
    pub mod name {
        /// Why a name can't be a section's: it has a byte that is no letter, digit or dash.
        #[derive(Clone, Copy, Debug, PartialEq, Eq, PartialOrd, Ord, thiserror::Error)]
        #[error("{}", crate::sys::words(crate::sys::number::INVALID_SECTION_NAME))]
        pub struct Error;
    }

    /// Headers of sections.
    pub mod header {
        use super::made;
        use crate::parse::span;
        use crate::sys::{self, number};
        use crate::text::AsBStr;

        /// Whether the name can be that of a subsection: it has no line ending and no byte 0.
        #[must_use]
        pub fn is_valid_subsection(name: impl AsBStr) -> bool {
            made("a", Some(name.as_bstr())).is_ok()
        }

        /// Why a section isn't made or renamed.
        #[derive(Clone, Copy, Debug, PartialEq, Eq, PartialOrd, Ord, thiserror::Error)]
        pub enum Error {
            /// A byte of the name is no letter, digit or dash.
            #[error("{}", sys::words(number::INVALID_SECTION_NAME))]
            InvalidName,
            /// The subsection has a line ending or a byte 0.
            #[error("{}", sys::words(number::INVALID_SUBSECTION))]
            InvalidSubSection,
            /// The file would be too long.
            #[error(transparent)]
            Span(#[from] span::Error),
        }

        impl Error {
            /// The number of the error in docs/refusals.md.
            #[must_use]
            pub fn number(&self) -> u32 {
                match self {
                    Error::InvalidName => number::INVALID_SECTION_NAME,
                    Error::InvalidSubSection => number::INVALID_SUBSECTION,
                    Error::Span(error) => error.number(),
                }
            }

            pub(crate) fn of(number: u32) -> Self {
                match number {
                    number::INVALID_SECTION_NAME => Error::InvalidName,
                    number::INVALID_SUBSECTION => Error::InvalidSubSection,
                    span::Error::NUMBER => Error::Span(span::Error),
                    number => sys::unforeseen(number),
                }
            }
        }
    }

    /// Keys of sections, whose names needn't be such.
    pub mod unvalidated {
        use bstr::{BStr, ByteSlice};

        use crate::text::AsBStr;

        /// The names of a section: its own, and its subsection's if there is one.
        #[derive(Clone, Copy, Debug, PartialEq, Eq, PartialOrd, Ord, Hash)]
        pub struct KeyRef<'a> {
            /// The section's name, such as `remote`.
            pub section_name: &'a str,
            /// The subsection's name, such as `origin`.
            pub subsection_name: Option<&'a BStr>,
        }

        impl<'a> KeyRef<'a> {
            /// The key that a text writes, such as `remote.origin`: its subsection is all behind the first dot. `None` if the section is not
            /// UTF-8.
            pub fn parse(input: &'a (impl AsBStr + ?Sized)) -> Option<Self> {
                let input: &[u8] = AsBStr::as_bstr(input);
                let (section, subsection) = match input.find_byte(b'.') {
                    Some(dot) => (&input[..dot], Some(ByteSlice::as_bstr(&input[dot + 1..]))),
                    None => (input, None),
                };
                Some(KeyRef {
                    section_name: section.to_str().ok()?,
                    subsection_name: subsection,
                })
            }
        }
    }

    /// Names of values.
    pub mod value_name {
        /// Why a name can't be a value's: it isn't a letter with letters, digits and dashes behind it.
        #[derive(Clone, Copy, Debug, PartialEq, Eq, PartialOrd, Ord, thiserror::Error)]
        #[error("{}", crate::sys::words(Error::NUMBER))]
        pub struct Error;

        /// The name, if it can be a value's.
        pub(crate) fn checked(name: &str) -> Result<(), Error> {
            let mut file = crate::File::default();
            match file.set_raw_value_by("a", None, name, "") {
                Err(crate::file::set_raw_value::Error::ValueName(error)) => Err(error),
                _ => Ok(()),
            }
        }

        impl Error {
            pub(crate) const NUMBER: u32 = crate::sys::number::INVALID_VALUE_NAME;

            /// The number of the error in docs/refusals.md.
            #[must_use]
            pub fn number(&self) -> u32 {
                Error::NUMBER
            }
        }
    }
}
