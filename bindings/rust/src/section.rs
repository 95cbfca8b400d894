//! The sections of a file.
use std::fmt;

use bstr::{BStr, BString};

use crate::file::{section_names, File};
use crate::ids::SectionId;
use crate::meta::Metadata;
use crate::parse::section::header;
use crate::parse::span;
use crate::source::Trust;
use crate::sys;
use crate::text::{AsBStr, AsBStrOpt, IntoBStringOpt};

use crate::view::{is_named, lookups, HeaderText};
pub use crate::view::{BodyRef, BodyRefIter, Entries, HeaderRef, SectionRef};

/// A section that was taken out of a file, or copied. Equal ones have the same header, entries and metadata.
#[derive(Clone)]
pub struct Section {
    pub(crate) header: BString,
    pub(crate) name: BString,
    pub(crate) subsection_name: Option<BString>,
    pub(crate) meta: Metadata,
    pub(crate) entries: Vec<(BString, Option<BString>)>,
}

impl Section {
    /// The section's header.
    #[must_use]
    pub fn header(&self) -> HeaderRef<'_> {
        HeaderRef {
            name: self.name.as_bstr(),
            subsection_name: self.subsection_name.as_ref().map(AsBStr::as_bstr),
            text: HeaderText::Alone(self.header.as_bstr()),
        }
    }

    /// Where the section came from.
    #[must_use]
    pub fn meta(&self) -> &Metadata {
        &self.meta
    }

    fn pairs(&self) -> impl DoubleEndedIterator<Item = (&BStr, Option<&BStr>)> {
        let entries = self.entries.iter();
        entries.map(|(name, value)| (name.as_bstr(), value.as_ref().map(AsBStr::as_bstr)))
    }

    lookups!();

    /// The names of the entries, as they are spelled, in order, each as often as it occurs.
    pub fn value_names(&self) -> impl DoubleEndedIterator<Item = String> + '_ {
        self.pairs().map(|(name, _)| name.to_string())
    }
}

impl PartialEq for Section {
    fn eq(&self, other: &Self) -> bool {
        let (own, others) = (&self.entries, &other.entries);
        (self.header(), self.meta(), own) == (other.header(), other.meta(), others)
    }
}

impl Eq for Section {}

impl fmt::Debug for Section {
    fn fmt(&self, f: &mut fmt::Formatter<'_>) -> fmt::Result {
        f.debug_struct("Section")
            .field("header", &self.header())
            .field("meta", &self.meta)
            .field("entries", &self.entries)
            .finish()
    }
}

/// Values of a section.
pub mod value {
    use crate::parse::section::value_name;
    use crate::parse::span;
    use crate::sys;

    /// Why a section doesn't get a value. The file is then as it was.
    #[derive(Clone, Copy, Debug, PartialEq, Eq, thiserror::Error)]
    pub enum Error {
        /// The name can't be a value's.
        #[error(transparent)]
        ValueName(#[from] value_name::Error),
        /// The file would be too long.
        #[error(transparent)]
        Span(#[from] span::Error),
    }

    impl Error {
        /// The number of the error in docs/refusals.md.
        #[must_use]
        pub fn number(&self) -> u32 {
            match self {
                Error::ValueName(error) => error.number(),
                Error::Span(error) => error.number(),
            }
        }

        pub(crate) fn of(number: u32) -> Self {
            match number {
                span::Error::NUMBER => Error::Span(span::Error),
                value_name::Error::NUMBER => Error::ValueName(value_name::Error),
                number => sys::unforeseen(number),
            }
        }
    }
}

/// An editor of a section of a file.
pub struct SectionMut<'a> {
    file: &'a mut File,
    place: usize,
}

impl fmt::Debug for SectionMut<'_> {
    fn fmt(&self, f: &mut fmt::Formatter<'_>) -> fmt::Result {
        f.debug_tuple("SectionMut").field(&self.section()).finish()
    }
}

impl<'a> SectionMut<'a> {
    /// The editor of the section at a place, where there is one.
    pub(crate) fn at(file: &'a mut File, place: usize) -> Self {
        SectionMut { file, place }
    }

    /// The section as it is until the next edit.
    #[must_use]
    pub fn section(&self) -> SectionRef<'_> {
        self.file.sys.seen().section(self.place)
    }

    /// The section's header as it is now.
    #[must_use]
    pub fn header(&self) -> HeaderRef<'_> {
        self.section().header()
    }

    /// The section's entries as they are now.
    #[must_use]
    pub fn body(&self) -> BodyRef<'_> {
        self.section().body()
    }

    /// Where the section comes from.
    #[must_use]
    pub fn meta(&self) -> &Metadata {
        self.section().meta()
    }

    /// The section's number in its file.
    #[must_use]
    pub fn id(&self) -> SectionId {
        self.section().id()
    }

    /// [`BodyRef::is_void`] of the section as it is now.
    #[must_use]
    pub fn is_void(&self) -> bool {
        self.section().is_void()
    }

    /// [`SectionRef::to_bstring`] of the section as it is now.
    #[must_use]
    pub fn to_bstring(&self) -> BString {
        self.section().to_bstring()
    }

    /// [`BodyRef::value_names`] of the section as it is now.
    pub fn value_names(&self) -> impl DoubleEndedIterator<Item = String> + ExactSizeIterator + '_ {
        self.section().body().value_names()
    }

    /// [`BodyRef::value`] of the section as it is now.
    #[must_use]
    pub fn value(&self, value_name: impl AsRef<str>) -> Option<BString> {
        self.section().value(value_name)
    }

    /// [`BodyRef::value_implicit`] of the section as it is now.
    #[must_use]
    pub fn value_implicit(&self, value_name: &str) -> Option<Option<BString>> {
        self.section().value_implicit(value_name)
    }

    /// [`BodyRef::values`] of the section as it is now.
    #[must_use]
    pub fn values(&self, value_name: &str) -> Vec<BString> {
        self.section().values(value_name)
    }

    /// [`BodyRef::contains_value_name`] of the section as it is now.
    #[must_use]
    pub fn contains_value_name(&self, value_name: &str) -> bool {
        self.section().contains_value_name(value_name)
    }

    /// [`BodyRef::num_values`] of the section as it is now.
    #[must_use]
    pub fn num_values(&self) -> usize {
        self.section().num_values()
    }

    /// Sets how far the section is trusted.
    pub fn set_trust(&mut self, trust: Trust) -> &mut Self {
        self.file.sys.set_trust_at(self.place, trust.number());
        self
    }

    fn push_line(
        &mut self,
        value_name: &str,
        value: Option<&BStr>,
        comment: Option<&BStr>,
    ) -> Result<&mut Self, value::Error> {
        let line = sys::Line {
            name: sys::Text::of(value_name.as_bytes()),
            has_value: value.is_some(),
            value: sys::Text::of(value.unwrap_or_default()),
            has_comment: comment.is_some(),
            comment: sys::Text::of(comment.unwrap_or_default()),
        };
        let pushed = self.file.sys.push_line_at(self.place, &line);
        pushed.map_err(value::Error::of)?;
        Ok(self)
    }

    /// Adds an entry after all others, with the whitespace that the section uses; without a value it is the name alone.
    ///
    /// # Errors
    ///
    /// The name can't be a value's, or the file would be too long.
    ///
    /// # Examples
    ///
    /// ```
    /// let mut file = gix_config::File::try_from("[a]\n\tk = 1\n")?;
    /// file.section_mut("a", None)?.push("k", Some("2".into()))?.push("flag", None)?;
    /// assert_eq!(file.to_string(), "[a]\n\tk = 1\n\tk = 2\n\tflag\n");
    /// # Ok::<(), Box<dyn std::error::Error>>(())
    /// ```
    pub fn push(
        &mut self,
        value_name: impl AsRef<str>,
        value: impl AsBStrOpt,
    ) -> Result<&mut Self, value::Error> {
        self.push_line(value_name.as_ref(), value.as_bstr_opt(), None)
    }

    /// Adds an entry below the last one, or below the header if there is none: comments and blank lines behind it stay behind the new one.
    /// It is where `git config` puts a new entry.
    ///
    /// # Errors
    ///
    /// Those of [`SectionMut::push`].
    ///
    /// # Examples
    ///
    /// ```
    /// let mut file = gix_config::File::try_from("[a]\n\tk = 1\n\n# of b\n[b]\n")?;
    /// file.section_mut("a", None)?.push_after_last("j", "2")?;
    /// assert_eq!(file.to_string(), "[a]\n\tk = 1\n\tj = 2\n\n# of b\n[b]\n");
    /// # Ok::<(), Box<dyn std::error::Error>>(())
    /// ```
    pub fn push_after_last(
        &mut self,
        value_name: impl AsRef<str>,
        value: impl AsBStr,
    ) -> Result<&mut Self, value::Error> {
        let assigned = assigned(value_name.as_ref(), value.as_bstr());
        let pushed = self.file.sys.push_below_last_at(self.place, &assigned);
        pushed.map_err(value::Error::of)?;
        Ok(self)
    }

    /// Adds a line ending after all that the section has.
    ///
    /// # Errors
    ///
    /// The file would be too long.
    pub fn push_newline(&mut self) -> Result<&mut Self, span::Error> {
        match self.file.sys.push_newline_at(self.place) {
            Ok(()) => Ok(self),
            Err(span::Error::NUMBER) => Err(span::Error),
            Err(number) => sys::unforeseen(number),
        }
    }

    /// As [`SectionMut::push`], with a comment behind it.
    ///
    /// # Errors
    ///
    /// Those of [`SectionMut::push`].
    pub fn push_with_comment(
        &mut self,
        value_name: impl AsRef<str>,
        value: impl AsBStrOpt,
        comment: impl AsBStr,
    ) -> Result<&mut Self, value::Error> {
        let comment = Some(comment.as_bstr());
        self.push_line(value_name.as_ref(), value.as_bstr_opt(), comment)
    }

    /// Gives the last entry of the name a value, or adds one. Returns the raw text of the value that was there, if there was an entry.
    ///
    /// # Errors
    ///
    /// Those of [`SectionMut::push`].
    ///
    /// # Examples
    ///
    /// ```
    /// let mut file = gix_config::File::try_from("[a]\n\tk = 1\n")?;
    /// assert_eq!(file.section_mut("a", None)?.set("k", "2")?.expect("a value"), "1");
    /// # Ok::<(), Box<dyn std::error::Error>>(())
    /// ```
    pub fn set(
        &mut self,
        value_name: impl AsRef<str>,
        value: impl AsBStr,
    ) -> Result<Option<BString>, value::Error> {
        let assigned = assigned(value_name.as_ref(), value.as_bstr());
        let set = self.file.sys.set_value_at(self.place, &assigned);
        set.map_err(value::Error::of)
    }

    /// Removes the last entry of the name. Returns the raw text of its value, if there was one.
    ///
    /// # Examples
    ///
    /// ```
    /// let mut file = gix_config::File::try_from("[a]\n\tk = 1\n\tk = 2\n")?;
    /// assert_eq!(file.section_mut("a", None)?.remove("k").expect("an entry"), "2");
    /// assert_eq!(file.to_string(), "[a]\n\tk = 1\n");
    /// # Ok::<(), Box<dyn std::error::Error>>(())
    /// ```
    pub fn remove(&mut self, value_name: &str) -> Option<BString> {
        found(self.file.sys.remove_value_at(self.place, value_name))
    }

    /// Removes the marked entries of the name: the first of its entries goes if the first mark is true, and so on; those behind the last
    /// mark stay. Returns how many went.
    pub fn remove_marked(&mut self, value_name: &str, marks: &[bool]) -> usize {
        let file = &mut self.file.sys;
        file.remove_marked_at(self.place, value_name, marks)
    }

    /// Removes all entries of the name. Returns how many went.
    ///
    /// # Examples
    ///
    /// ```
    /// let mut file = gix_config::File::try_from("[a]\n\tk = 1\n\tj = 2\n\tK = 3\n")?;
    /// assert_eq!(file.section_mut("a", None)?.remove_all("k"), 2);
    /// assert_eq!(file.to_string(), "[a]\n\tj = 2\n");
    /// # Ok::<(), Box<dyn std::error::Error>>(())
    /// ```
    pub fn remove_all(&mut self, value_name: &str) -> usize {
        let marks = vec![true; self.section().values(value_name).len()];
        self.remove_marked(value_name, &marks)
    }

    /// Removes the last entry, with all that is after it. Returns its name as it is spelled, and what its value means.
    pub fn pop(&mut self) -> Option<(String, BString)> {
        let (name, value) = found(self.file.sys.pop_value_at(self.place))?;
        Some((name.to_string(), value))
    }

    /// Gives the section another name and subsection.
    ///
    /// # Errors
    ///
    /// A section can't be made of the names, or the file would be too long.
    pub fn rename(
        &mut self,
        name: impl AsRef<str>,
        subsection_name: impl IntoBStringOpt,
    ) -> Result<&mut Self, header::Error> {
        let subsection_name = subsection_name.into_bstring_opt();
        let names = section_names(name.as_ref(), subsection_name.as_ref().map(AsBStr::as_bstr));
        let renamed = self.file.sys.rename_section_at(self.place, &names);
        renamed.map_err(header::Error::of)?;
        Ok(self)
    }
}

/// A name with its value, as the library takes them.
fn assigned<'a>(name: &'a str, value: &'a BStr) -> sys::Assigned<'a> {
    sys::Assigned {
        name: sys::Text::of(name.as_bytes()),
        value: sys::Text::of(value),
    }
}

/// What a call found that may find nothing.
fn found<T>(answer: Result<T, u32>) -> Option<T> {
    match answer {
        Ok(found) => Some(found),
        Err(sys::NOTHING_THERE) => None,
        Err(number) => sys::unforeseen(number),
    }
}
