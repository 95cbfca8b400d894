//! What is known of where a file or a section comes from.
use std::io;
use std::path::PathBuf;

use crate::includes::path_of;
use crate::source::{Source, Trust};

/// Where a file or a section comes from.
#[derive(Clone, Debug, PartialEq, Eq, PartialOrd, Ord, Hash)]
pub struct Metadata {
    /// The path of its file, if it was read from one.
    pub path: Option<PathBuf>,
    /// The place that it was read from.
    pub source: Source,
    /// How many includes led to its file: 0 for a file that was not included.
    pub level: u8,
    /// How far it is trusted.
    pub trust: Trust,
}

/// That of what comes from a place, but from no file: it is trusted.
impl From<Source> for Metadata {
    fn from(source: Source) -> Self {
        Metadata {
            path: None,
            source,
            level: 0,
            trust: Trust::Full,
        }
    }
}

impl Default for Metadata {
    fn default() -> Self {
        Metadata::api()
    }
}

impl Metadata {
    /// That of what the program makes itself.
    #[must_use]
    pub fn api() -> Self {
        Metadata::from(Source::Api)
    }

    /// That of the file at a path, which is trusted if who runs the program owns it.
    ///
    /// # Errors
    ///
    /// Nobody knows who owns it: there is none, for example.
    pub fn try_from_path(path: impl Into<PathBuf>, source: Source) -> io::Result<Self> {
        let path = path.into();
        let trust = Trust::from_path_ownership(&path)?;
        Ok(Metadata::from(source).with(trust).at(path))
    }

    /// The same with another trust.
    #[must_use]
    pub fn with(mut self, trust: Trust) -> Self {
        self.trust = trust;
        self
    }

    /// The same with a path.
    #[must_use]
    pub fn at(mut self, path: impl Into<PathBuf>) -> Self {
        self.path = Some(path.into());
        self
    }

    /// The same as the library tells it.
    pub(crate) fn of(path: Option<&[u8]>, source: u32, level: u32, trust: u32) -> Self {
        Metadata {
            path: path.map(path_of),
            source: Source::of(source),
            // (at the most ten)
            level: u8::try_from(level).unwrap_or(u8::MAX),
            trust: Trust::of(trust),
        }
    }
}
