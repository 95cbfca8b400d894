//! Files that are made: how, and why they aren't.
use crate::includes::LoadError;
use crate::parse::{self, span};
use crate::path::interpolate;

pub use crate::includes;

/// How a file is made of texts.
#[derive(Clone, Copy, Debug, Default)]
pub struct Options<'a> {
    /// Which includes are followed.
    pub includes: includes::Options<'a>,
    /// Whether whitespace, line endings and comments are left out: such a file is for lookups.
    pub lossy: bool,
    /// Whether a file that can't be opened counts as missing, and one that can't be read as empty.
    pub ignore_io_errors: bool,
}

/// Options that differ from the default in which includes are followed.
impl<'a> From<includes::Options<'a>> for Options<'a> {
    fn from(includes: includes::Options<'a>) -> Self {
        Options {
            includes,
            ..Options::default()
        }
    }
}

/// Why a text isn't made a file.
#[derive(Debug, thiserror::Error)]
pub enum Error {
    /// It can't be read on at some place.
    #[error(transparent)]
    Parse(#[from] parse::Error),
    /// The path of its file is not UTF-8.
    #[error(transparent)]
    Interpolate(#[from] interpolate::Error),
    /// An include is refused.
    #[error(transparent)]
    Includes(#[from] includes::Error),
    /// The file would be too long.
    #[error(transparent)]
    Span(#[from] span::Error),
}

impl Error {
    /// The number of the error in docs/refusals.md.
    #[must_use]
    pub fn number(&self) -> u32 {
        match self {
            Error::Parse(error) => error.number(),
            Error::Interpolate(error) => error.number(),
            Error::Includes(error) => error.number(),
            Error::Span(error) => error.number(),
        }
    }
}

/// Files that are loaded by their paths.
pub mod from_paths {
    use std::io;
    use std::path::PathBuf;

    use super::LoadError;
    use crate::sys::{self, number};

    /// Why files aren't loaded.
    #[derive(Debug, thiserror::Error)]
    pub enum Error {
        /// A file is missing, or can't be opened or read.
        #[error("{}: '{}'", sys::words(number::FILE_NOT_READ), path.display())]
        Io {
            /// Why.
            source: io::Error,
            /// Its path.
            path: PathBuf,
        },
        /// A text is refused, or an include.
        #[error(transparent)]
        Init(#[from] super::Error),
    }

    impl Error {
        /// The number of the error in docs/refusals.md.
        #[must_use]
        pub fn number(&self) -> u32 {
            match self {
                Error::Io { .. } => number::FILE_NOT_READ,
                Error::Init(error) => error.number(),
            }
        }
    }

    impl From<LoadError> for Error {
        fn from(error: LoadError) -> Self {
            match error {
                LoadError::File { path, source } => Error::Io { source, path },
                LoadError::Include(error) => Error::Init(error.into()),
                other => other.unforeseen(),
            }
        }
    }
}

/// Entries that variables set.
pub mod from_env {
    use super::{includes, LoadError};
    use crate::parse::section::header;
    use crate::section::value;
    use crate::sys::{self, number};

    /// Why the entries that variables set aren't loaded.
    #[derive(Debug, thiserror::Error)]
    pub enum Error {
        /// A key or a value isn't UTF-8.
        #[error("{kind} {index}: {}", sys::words(number::ILLFORMED_VARIABLE))]
        IllformedUtf8 {
            /// The number of the entry, from 0.
            index: usize,
            /// `key` or `value`.
            kind: &'static str,
        },
        /// The count is no number.
        #[error("{}: {input}", sys::words(number::INVALID_CONFIG_COUNT))]
        InvalidConfigCount {
            /// What it is.
            input: String,
        },
        /// A key isn't set.
        #[error("GIT_CONFIG_KEY_{key_id}: {}", sys::words(number::INVALID_KEY_ID))]
        InvalidKeyId {
            /// The number of the entry, from 0.
            key_id: usize,
        },
        /// A key has no dot.
        #[error(
            "GIT_CONFIG_KEY_{key_id}: {}: {key_val}",
            sys::words(number::INVALID_KEY_VALUE)
        )]
        InvalidKeyValue {
            /// The number of the entry, from 0.
            key_id: usize,
            /// The key.
            key_val: String,
        },
        /// A value isn't set.
        #[error(
            "GIT_CONFIG_VALUE_{value_id}: {}",
            sys::words(number::INVALID_VALUE_ID)
        )]
        InvalidValueId {
            /// The number of the entry, from 0.
            value_id: usize,
        },
        /// An include is refused, or the file would be too long.
        #[error(transparent)]
        Includes(#[from] includes::Error),
        /// A section can't be made of the names of a key.
        #[error(transparent)]
        Section(#[from] header::Error),
        /// The name of a key can't be a value's.
        #[error(transparent)]
        SectionValue(#[from] value::Error),
    }

    impl Error {
        /// The number of the error in docs/refusals.md.
        #[must_use]
        pub fn number(&self) -> u32 {
            match self {
                Error::IllformedUtf8 { .. } => number::ILLFORMED_VARIABLE,
                Error::InvalidConfigCount { .. } => number::INVALID_CONFIG_COUNT,
                Error::InvalidKeyId { .. } => number::INVALID_KEY_ID,
                Error::InvalidKeyValue { .. } => number::INVALID_KEY_VALUE,
                Error::InvalidValueId { .. } => number::INVALID_VALUE_ID,
                Error::Includes(error) => error.number(),
                Error::Section(error) => error.number(),
                Error::SectionValue(error) => error.number(),
            }
        }

        /// That of a variable, such as `GIT_CONFIG_KEY_0`, and what it is set to.
        fn of(number: u32, name: &str, value: String) -> Self {
            let id = name.rsplit('_').next().and_then(|it| it.parse().ok());
            let id: usize = id.unwrap_or_default();
            let is_key = name.starts_with("GIT_CONFIG_KEY_");
            match number {
                number::ILLFORMED_VARIABLE => Error::IllformedUtf8 {
                    index: id,
                    kind: if is_key { "key" } else { "value" },
                },
                number::INVALID_CONFIG_COUNT => Error::InvalidConfigCount { input: value },
                number::INVALID_KEY_ID => Error::InvalidKeyId { key_id: id },
                number::INVALID_KEY_VALUE => Error::InvalidKeyValue {
                    key_id: id,
                    key_val: value,
                },
                number::INVALID_VALUE_ID => Error::InvalidValueId { value_id: id },
                number => sys::unforeseen(number),
            }
        }
    }

    impl From<LoadError> for Error {
        fn from(error: LoadError) -> Self {
            match error {
                LoadError::Variable {
                    number,
                    name,
                    value,
                } => Error::of(number, &name, value),
                LoadError::Include(error) => error.into(),
                LoadError::Header(error) => error.into(),
                LoadError::ValueName(error) => value::Error::from(error).into(),
                other => other.unforeseen(),
            }
        }
    }
}

/// The configuration of a repository.
pub mod from_git_dir {
    use super::{from_env, from_paths, includes, LoadError};

    /// Why the configuration of a repository isn't loaded.
    #[derive(Debug, thiserror::Error)]
    pub enum Error {
        /// A file is missing, or can't be opened or read.
        #[error(transparent)]
        FromPaths(#[from] from_paths::Error),
        /// An entry that variables set is refused.
        #[error(transparent)]
        FromEnv(#[from] from_env::Error),
        /// A text or an include is refused, or the file would be too long.
        #[error(transparent)]
        Includes(#[from] includes::Error),
    }

    impl Error {
        /// The number of the error in docs/refusals.md.
        #[must_use]
        pub fn number(&self) -> u32 {
            match self {
                Error::FromPaths(error) => error.number(),
                Error::FromEnv(error) => error.number(),
                Error::Includes(error) => error.number(),
            }
        }
    }

    impl From<LoadError> for Error {
        fn from(error: LoadError) -> Self {
            match error {
                LoadError::Include(error) => error.into(),
                LoadError::File { .. } => from_paths::Error::from(error).into(),
                other => from_env::Error::from(other).into(),
            }
        }
    }
}
