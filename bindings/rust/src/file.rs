//! A file of configuration.
use std::fmt;
use std::io;
use std::str::FromStr;

use bstr::{BStr, BString};

use crate::key::{AsKey, KeyRef};
use crate::parse::section::{header, unvalidated, value_name};
use crate::sys;
use crate::{lookup, parse, path, value};

pub use crate::ids::SectionId;
pub use crate::includes;
pub use crate::init;
pub use crate::meta::Metadata;
pub use crate::multi_value_mut::MultiValueMut;
pub use crate::section::{self, Section, SectionMut};
pub use crate::text::{AsBStr, AsBStrOpt, IntoBStringOpt};
pub use crate::value_mut::ValueMut;
pub use crate::view::{BodyRef, BodyRefIter, HeaderRef, SectionRef};

/// Values that are set.
pub mod set_raw_value {
    use crate::parse::section::{header, value_name};
    use crate::parse::span;
    use crate::{lookup, section, sys};

    /// Why a value isn't set.
    #[derive(Clone, Copy, Debug, PartialEq, Eq, thiserror::Error)]
    pub enum Error {
        /// There is no such entry, of a call that makes none.
        #[error(transparent)]
        Lookup(#[from] lookup::existing::Error),
        /// A section can't be made of the names.
        #[error(transparent)]
        Header(#[from] header::Error),
        /// The name can't be a value's.
        #[error(transparent)]
        ValueName(#[from] value_name::Error),
        /// The file would be too long.
        #[error(transparent)]
        Span(#[from] span::Error),
    }

    impl Error {
        /// The number of the error in docs/refusals.md.
        #[must_use]
        pub fn number(&self) -> u32 {
            match self {
                Error::Lookup(error) => error.number(),
                Error::Header(error) => error.number(),
                Error::ValueName(error) => error.number(),
                Error::Span(error) => error.number(),
            }
        }

        pub(crate) fn of(number: u32) -> Self {
            match number {
                span::Error::NUMBER => Error::Span(span::Error),
                sys::number::INVALID_SECTION_NAME | sys::number::INVALID_SUBSECTION => {
                    Error::Header(header::Error::of(number))
                }
                value_name::Error::NUMBER => Error::ValueName(value_name::Error),
                sys::number::SECTION_MISSING..=sys::number::KEY_MISSING => {
                    Error::Lookup(lookup::existing::Error::of(number))
                }
                number => sys::unforeseen(number),
            }
        }
    }

    impl From<section::value::Error> for Error {
        fn from(error: section::value::Error) -> Self {
            Error::of(error.number())
        }
    }
}

/// Sections that are renamed.
pub mod rename_section {
    use crate::parse::section::header;
    use crate::{lookup, sys};

    /// Why a section isn't renamed.
    #[derive(Clone, Copy, Debug, PartialEq, Eq, thiserror::Error)]
    pub enum Error {
        /// There is none.
        #[error(transparent)]
        Lookup(#[from] lookup::existing::Error),
        /// A section can't be made of the new names, or the file would be too long.
        #[error(transparent)]
        Section(#[from] header::Error),
    }

    impl Error {
        /// The number of the error in docs/refusals.md.
        #[must_use]
        pub fn number(&self) -> u32 {
            match self {
                Error::Lookup(error) => error.number(),
                Error::Section(error) => error.number(),
            }
        }

        pub(crate) fn of(number: u32) -> Self {
            match number {
                sys::number::SECTION_MISSING..=sys::number::KEY_MISSING => {
                    Error::Lookup(lookup::existing::Error::of(number))
                }
                number => Error::Section(header::Error::of(number)),
            }
        }
    }
}

/// A file of configuration: a text whose values are found by their keys. An edit changes what it names, and nothing else.
///
/// It stays on its thread.
pub struct File {
    pub(crate) sys: sys::File,
}

/// The names as the library takes them.
pub(crate) fn names<'a>(
    section: &'a str,
    subsection: Option<&'a BStr>,
    name: &'a str,
) -> sys::Key<'a> {
    sys::Key {
        section: sys::Text::of(section.as_bytes()),
        has_subsection: subsection.is_some(),
        subsection: sys::Text::of(subsection.unwrap_or_default()),
        name: sys::Text::of(name.as_bytes()),
    }
}

/// The names of a key as the library takes them.
pub(crate) fn names_of<'a>(key: &KeyRef<'a>) -> sys::Key<'a> {
    names(key.section_name, key.subsection_name, key.value_name)
}

pub(crate) fn section_names<'a>(name: &'a str, subsection: Option<&'a BStr>) -> sys::Section<'a> {
    sys::Section {
        name: sys::Text::of(name.as_bytes()),
        has_subsection: subsection.is_some(),
        subsection: sys::Text::of(subsection.unwrap_or_default()),
    }
}

/// The key, of a call that has to find it.
pub(crate) fn key_of<Key: AsKey>(key: &Key) -> Result<KeyRef<'_>, lookup::existing::Error> {
    key.try_as_key().ok_or(lookup::existing::Error::KeyMissing)
}

/// The key of a section, of a call that has to find it.
fn section_key_of<Key: AsBStr>(
    key: &Key,
) -> Result<unvalidated::KeyRef<'_>, lookup::existing::Error> {
    unvalidated::KeyRef::parse(key).ok_or(lookup::existing::Error::KeyMissing)
}

/// The value in a type, of what a lookup answered, if there is one. One of another type is told with its text.
pub(crate) fn typed<T>(
    found: Result<T, u32>,
    message: &'static str,
    input: impl FnOnce() -> BString,
) -> Result<Option<T>, value::Error> {
    match found {
        Ok(value) => Ok(Some(value)),
        Err(sys::NOTHING_THERE) => Ok(None),
        Err(value::Error::NUMBER) => Err(value::Error {
            message,
            input: input(),
        }),
        Err(number) => sys::unforeseen(number),
    }
}

impl File {
    pub(crate) fn parsed(text: &[u8]) -> Result<File, parse::Error> {
        let parsed = sys::File::parse(text);
        let sys = parsed.map_err(|refused| parse::Error::of(refused, text))?;
        Ok(File { sys })
    }

    /// A file that is yet to be loaded.
    pub(crate) fn empty() -> File {
        File {
            sys: sys::File::empty(),
        }
    }

    /// What the last value of a key means, or what is missing.
    ///
    /// # Errors
    ///
    /// There is no such section, subsection or value; or the key is none.
    ///
    /// # Examples
    ///
    /// ```
    /// let file = gix_config::File::try_from("[core]\n\teditor = \"vi -n\" # mine\n")?;
    /// assert_eq!(file.raw_value("core.editor")?, "vi -n");
    /// assert!(file.raw_value("core.pager").is_err());
    /// # Ok::<(), Box<dyn std::error::Error>>(())
    /// ```
    pub fn raw_value(&self, key: impl AsKey) -> Result<BString, lookup::existing::Error> {
        let key = key_of(&key)?;
        self.raw_value_by(key.section_name, key.subsection_name, key.value_name)
    }

    /// As [`File::raw_value`], by names.
    ///
    /// # Errors
    ///
    /// Those of [`File::raw_value`].
    pub fn raw_value_by(
        &self,
        section_name: impl AsRef<str>,
        subsection_name: impl AsBStrOpt,
        value_name: impl AsRef<str>,
    ) -> Result<BString, lookup::existing::Error> {
        let subsection_name = subsection_name.as_bstr_opt();
        let key = names(section_name.as_ref(), subsection_name, value_name.as_ref());
        let value = self.sys.value(&key, None);
        Ok(value.map_err(lookup::existing::Error::of)?.copy())
    }

    /// What all values of a key mean, one or more, in the file's order.
    ///
    /// # Errors
    ///
    /// Those of [`File::raw_value`].
    pub fn raw_values(&self, key: impl AsKey) -> Result<Vec<BString>, lookup::existing::Error> {
        let key = key_of(&key)?;
        self.raw_values_by(key.section_name, key.subsection_name, key.value_name)
    }

    /// As [`File::raw_values`], by names.
    ///
    /// # Errors
    ///
    /// Those of [`File::raw_value`].
    pub fn raw_values_by(
        &self,
        section_name: impl AsRef<str>,
        subsection_name: impl AsBStrOpt,
        value_name: impl AsRef<str>,
    ) -> Result<Vec<BString>, lookup::existing::Error> {
        let subsection_name = subsection_name.as_bstr_opt();
        let key = names(section_name.as_ref(), subsection_name, value_name.as_ref());
        let values = self.sys.values(&key, None);
        values.map_err(lookup::existing::Error::of)
    }

    /// What the last value of a key means, if there is one.
    ///
    /// # Examples
    ///
    /// ```
    /// let file = gix_config::File::try_from("[core]\n\teditor = vi\n")?;
    /// assert_eq!(file.string("core.editor").expect("a value"), "vi");
    /// assert_eq!(file.string("core.pager"), None);
    /// # Ok::<(), Box<dyn std::error::Error>>(())
    /// ```
    #[must_use]
    pub fn string(&self, key: impl AsKey) -> Option<BString> {
        self.raw_value(key).ok()
    }

    /// As [`File::string`], by names.
    #[must_use]
    pub fn string_by(
        &self,
        section_name: impl AsRef<str>,
        subsection_name: impl AsBStrOpt,
        value_name: impl AsRef<str>,
    ) -> Option<BString> {
        self.raw_value_by(section_name, subsection_name, value_name)
            .ok()
    }

    /// What all values of a key mean, in the file's order, if there are some.
    ///
    /// # Examples
    ///
    /// ```
    /// let file = gix_config::File::try_from("[remote \"o\"]\n\tfetch = a\n\tfetch = b\n")?;
    /// assert_eq!(file.strings("remote.o.fetch").expect("two"), ["a", "b"]);
    /// # Ok::<(), Box<dyn std::error::Error>>(())
    /// ```
    #[must_use]
    pub fn strings(&self, key: impl AsKey) -> Option<Vec<BString>> {
        self.raw_values(key).ok()
    }

    /// As [`File::strings`], by names.
    #[must_use]
    pub fn strings_by(
        &self,
        section_name: impl AsRef<str>,
        subsection_name: impl AsBStrOpt,
        value_name: impl AsRef<str>,
    ) -> Option<Vec<BString>> {
        self.raw_values_by(section_name, subsection_name, value_name)
            .ok()
    }

    /// The last value of a key as a path, if there is one: as it is written, until its shorthand is replaced.
    #[must_use]
    pub fn path(&self, key: impl AsKey) -> Option<path::Path> {
        self.string(key).map(path::Path::from)
    }

    /// As [`File::path`], by names.
    #[must_use]
    pub fn path_by(
        &self,
        section_name: impl AsRef<str>,
        subsection_name: impl AsBStrOpt,
        value_name: impl AsRef<str>,
    ) -> Option<path::Path> {
        self.string_by(section_name, subsection_name, value_name)
            .map(path::Path::from)
    }

    /// How many entries the sections have.
    ///
    /// # Examples
    ///
    /// ```
    /// let file = gix_config::File::try_from("[a]\n\tk = 1\n\tj\n")?;
    /// assert_eq!(file.num_values(), 2);
    /// # Ok::<(), Box<dyn std::error::Error>>(())
    /// ```
    #[must_use]
    pub fn num_values(&self) -> usize {
        self.sys.seen().num_entries()
    }

    /// Whether no section has anything behind its header.
    #[must_use]
    pub fn is_void(&self) -> bool {
        self.sections().all(|it| it.is_void())
    }

    /// Where the file comes from; its sections may come from others.
    #[must_use]
    pub fn meta(&self) -> &Metadata {
        self.sys.meta()
    }

    /// As [`File::meta`], for another file.
    #[must_use]
    pub fn meta_owned(&self) -> Metadata {
        self.meta().clone()
    }

    /// The sections in the file's order. The first call after an edit takes a pass over the file; the others take none.
    ///
    /// # Examples
    ///
    /// ```
    /// let file = gix_config::File::try_from("[a]\n[b \"s\"]\n")?;
    /// let names: Vec<_> = file.sections().map(|it| it.header().name().to_string()).collect();
    /// assert_eq!(names, ["a", "b"]);
    /// # Ok::<(), Box<dyn std::error::Error>>(())
    /// ```
    pub fn sections(&self) -> impl DoubleEndedIterator<Item = SectionRef<'_>> + ExactSizeIterator {
        self.sys.seen().sections()
    }

    /// As [`File::sections`], each with its number.
    pub fn sections_and_ids(
        &self,
    ) -> impl DoubleEndedIterator<Item = (SectionRef<'_>, SectionId)> + ExactSizeIterator {
        self.sections().map(|it| (it, it.id()))
    }

    /// The numbers of the sections, in the file's order.
    pub fn section_ids(
        &self,
    ) -> impl DoubleEndedIterator<Item = SectionId> + ExactSizeIterator + '_ {
        self.sections().map(|it| it.id())
    }

    /// The sections of the names, one or more, in order.
    pub(crate) fn named<'a>(
        &'a self,
        name: &str,
        subsection_name: Option<&BStr>,
    ) -> Result<impl DoubleEndedIterator<Item = SectionRef<'a>>, lookup::existing::Error> {
        let seen = self.sys.seen();
        let named = seen.of_names(name, subsection_name);
        if named.len() > 0 {
            return Ok(named);
        }
        Err(if seen.of_name(name).is_empty() {
            lookup::existing::Error::SectionMissing
        } else {
            lookup::existing::Error::SubSectionMissing
        })
    }

    /// The last section of the names whose metadata a filter keeps, if it keeps one. The filter is asked from the last on.
    fn last_of(
        &self,
        name: &str,
        subsection_name: Option<&BStr>,
        mut filter: impl FnMut(&Metadata) -> bool,
    ) -> Result<Option<SectionRef<'_>>, lookup::existing::Error> {
        let mut named = self.named(name, subsection_name)?;
        Ok(named.rfind(|it| filter(it.meta())))
    }

    /// The last section that has the name, without ASCII case, and exactly the subsection.
    ///
    /// # Errors
    ///
    /// There is no such section.
    ///
    /// # Examples
    ///
    /// ```
    /// let file = gix_config::File::try_from("[remote \"origin\"]\n\turl = a\n\turl = b\n")?;
    /// let remote = file.section("remote", Some("origin".into()))?;
    /// assert_eq!(remote.values("url"), ["a", "b"]);
    /// # Ok::<(), Box<dyn std::error::Error>>(())
    /// ```
    pub fn section(
        &self,
        name: impl AsRef<str>,
        subsection_name: impl AsBStrOpt,
    ) -> Result<SectionRef<'_>, lookup::existing::Error> {
        self.section_filter(name, subsection_name, |_| true)?
            .ok_or(lookup::existing::Error::SectionMissing)
    }

    /// As [`File::section`], the last whose metadata the filter keeps, if it keeps one.
    ///
    /// # Errors
    ///
    /// There is no section of the names, kept or not.
    pub fn section_filter(
        &self,
        name: impl AsRef<str>,
        subsection_name: impl AsBStrOpt,
        filter: impl FnMut(&Metadata) -> bool,
    ) -> Result<Option<SectionRef<'_>>, lookup::existing::Error> {
        self.last_of(name.as_ref(), subsection_name.as_bstr_opt(), filter)
    }

    /// As [`File::section`], by the section's key, such as `remote.origin`.
    ///
    /// # Errors
    ///
    /// There is no such section, or the key is none.
    ///
    /// # Examples
    ///
    /// ```
    /// let file = gix_config::File::try_from("[remote \"origin\"]\n\turl = a\n")?;
    /// assert_eq!(file.section_by_key("remote.origin")?.num_values(), 1);
    /// # Ok::<(), Box<dyn std::error::Error>>(())
    /// ```
    pub fn section_by_key(
        &self,
        section_key: impl AsBStr,
    ) -> Result<SectionRef<'_>, lookup::existing::Error> {
        let key = section_key_of(&section_key)?;
        self.section(key.section_name, key.subsection_name)
    }

    /// As [`File::section_filter`], by the section's key.
    ///
    /// # Errors
    ///
    /// There is no section of the key, kept or not, or the key is none.
    pub fn section_filter_by_key(
        &self,
        section_key: impl AsBStr,
        filter: impl FnMut(&Metadata) -> bool,
    ) -> Result<Option<SectionRef<'_>>, lookup::existing::Error> {
        let key = section_key_of(&section_key)?;
        self.section_filter(key.section_name, key.subsection_name, filter)
    }

    /// The sections that have the name, without ASCII case, and any subsection or none, in the file's order; `None` if there are none.
    ///
    /// # Examples
    ///
    /// ```
    /// let file = gix_config::File::try_from("[remote \"a\"]\n[remote \"b\"]\n")?;
    /// assert_eq!(file.sections_by_name("Remote").expect("some").count(), 2);
    /// assert!(file.sections_by_name("core").is_none());
    /// # Ok::<(), Box<dyn std::error::Error>>(())
    /// ```
    #[must_use]
    pub fn sections_by_name(
        &self,
        name: impl AsRef<str>,
    ) -> Option<impl Iterator<Item = SectionRef<'_>>> {
        self.sections_by_name_and_filter(name, |_| true)
    }

    /// As [`File::sections_by_name`], each with its number.
    #[must_use]
    pub fn sections_and_ids_by_name(
        &self,
        name: impl AsRef<str>,
    ) -> Option<impl Iterator<Item = (SectionRef<'_>, SectionId)>> {
        Some(self.sections_by_name(name)?.map(|it| (it, it.id())))
    }

    /// As [`File::sections_by_name`], those whose metadata the filter keeps; `None` if no section has the name, kept or not.
    #[must_use]
    pub fn sections_by_name_and_filter(
        &self,
        name: impl AsRef<str>,
        mut filter: impl FnMut(&Metadata) -> bool,
    ) -> Option<impl Iterator<Item = SectionRef<'_>>> {
        let mut named = self.sys.seen().of_name(name.as_ref());
        if named.is_empty() {
            return None;
        }
        named.retain(|section| filter(section.meta()));
        Some(named.into_iter())
    }

    /// An editor of the last section that has the name, without ASCII case, and exactly the subsection.
    ///
    /// # Errors
    ///
    /// There is no such section.
    ///
    /// # Examples
    ///
    /// ```
    /// let mut file = gix_config::File::try_from("[a]\n\tk = 1\n")?;
    /// file.section_mut("a", None)?.set("k", "2")?;
    /// assert_eq!(file.to_string(), "[a]\n\tk = 2\n");
    /// # Ok::<(), Box<dyn std::error::Error>>(())
    /// ```
    pub fn section_mut(
        &mut self,
        name: impl AsRef<str>,
        subsection_name: impl AsBStrOpt,
    ) -> Result<SectionMut<'_>, lookup::existing::Error> {
        self.section_mut_filter(name, subsection_name, |_| true)?
            .ok_or(lookup::existing::Error::SectionMissing)
    }

    /// As [`File::section_mut`], of the last whose metadata the filter keeps, if it keeps one.
    ///
    /// # Errors
    ///
    /// There is no section of the names, kept or not.
    pub fn section_mut_filter(
        &mut self,
        name: impl AsRef<str>,
        subsection_name: impl AsBStrOpt,
        filter: impl FnMut(&Metadata) -> bool,
    ) -> Result<Option<SectionMut<'_>>, lookup::existing::Error> {
        let last = self.last_of(name.as_ref(), subsection_name.as_bstr_opt(), filter)?;
        let place = last.map(|it| it.place());
        Ok(place.map(move |place| SectionMut::at(self, place)))
    }

    /// The place of the section that has the number, if one has it.
    fn place_of(&self, id: SectionId) -> Option<usize> {
        self.sys.seen().place(id)
    }

    /// An editor of the section that has the number, if one has it.
    pub fn section_mut_by_id(&mut self, id: SectionId) -> Option<SectionMut<'_>> {
        let place = self.place_of(id)?;
        Some(SectionMut::at(self, place))
    }

    /// As [`File::section_mut`], by the section's key, such as `remote.origin`.
    ///
    /// # Errors
    ///
    /// There is no such section, or the key is none.
    pub fn section_mut_by_key(
        &mut self,
        key: impl AsBStr,
    ) -> Result<SectionMut<'_>, lookup::existing::Error> {
        let key = section_key_of(&key)?;
        self.section_mut(key.section_name, key.subsection_name)
    }

    /// As [`File::section_mut_filter`], by the section's key.
    ///
    /// # Errors
    ///
    /// There is no section of the key, kept or not, or the key is none.
    pub fn section_mut_filter_by_key(
        &mut self,
        key: impl AsBStr,
        filter: impl FnMut(&Metadata) -> bool,
    ) -> Result<Option<SectionMut<'_>>, lookup::existing::Error> {
        let key = section_key_of(&key)?;
        self.section_mut_filter(key.section_name, key.subsection_name, filter)
    }

    /// Makes a section after all others, and returns an editor of it.
    ///
    /// # Errors
    ///
    /// A section can't be made of the names, or the file would be too long. The file is then as it was.
    ///
    /// # Examples
    ///
    /// ```
    /// let mut file = gix_config::File::default();
    /// file.new_section("remote", Some("origin".into()))?.push("url", Some("a".into()))?;
    /// assert_eq!(file.raw_value("remote.origin.url")?, "a");
    /// # Ok::<(), Box<dyn std::error::Error>>(())
    /// ```
    pub fn new_section(
        &mut self,
        name: impl AsRef<str>,
        subsection_name: impl IntoBStringOpt,
    ) -> Result<SectionMut<'_>, header::Error> {
        let subsection_name = subsection_name.into_bstring_opt();
        let names = section_names(name.as_ref(), subsection_name.as_ref().map(AsBStr::as_bstr));
        let place = self.sys.new_section(&names).map_err(header::Error::of)?;
        Ok(SectionMut::at(self, place))
    }

    /// [`File::section_mut`], or [`File::new_section`] if there is no such section.
    ///
    /// # Errors
    ///
    /// Those of [`File::new_section`].
    pub fn section_mut_or_create_new(
        &mut self,
        name: impl AsRef<str>,
        subsection_name: impl AsBStrOpt,
    ) -> Result<SectionMut<'_>, header::Error> {
        self.section_mut_or_create_new_filter(name, subsection_name, |_| true)
    }

    /// [`File::section_mut_filter`], or [`File::new_section`] if the filter keeps no section of the names.
    ///
    /// # Errors
    ///
    /// Those of [`File::new_section`].
    pub fn section_mut_or_create_new_filter(
        &mut self,
        name: impl AsRef<str>,
        subsection_name: impl AsBStrOpt,
        filter: impl FnMut(&Metadata) -> bool,
    ) -> Result<SectionMut<'_>, header::Error> {
        let (name, subsection_name) = (name.as_ref(), subsection_name.as_bstr_opt());
        let last = self.last_of(name, subsection_name, filter);
        match last.ok().flatten().map(|it| it.place()) {
            Some(place) => Ok(SectionMut::at(self, place)),
            None => self.new_section(name, subsection_name.map(BString::from)),
        }
    }

    /// Removes the last section that has the name, without ASCII case, and exactly the subsection. Returns it as it was, if there was one.
    ///
    /// # Examples
    ///
    /// ```
    /// let mut file = gix_config::File::try_from("[a]\n\tk = 1\n[b]\n")?;
    /// assert!(file.remove_section("a", None).is_some());
    /// assert_eq!(file.to_string(), "[b]\n");
    /// # Ok::<(), Box<dyn std::error::Error>>(())
    /// ```
    pub fn remove_section(
        &mut self,
        name: impl AsRef<str>,
        subsection_name: impl AsBStrOpt,
    ) -> Option<Section> {
        self.remove_section_filter(name, subsection_name, |_| true)
    }

    /// Removes the section that has the number. Returns it as it was, if one has it.
    ///
    /// # Examples
    ///
    /// ```
    /// let mut file = gix_config::File::try_from("[a]\n[a]\n\tk = 1\n")?;
    /// let first = file.section_ids().next().expect("a section");
    /// assert_eq!(file.remove_section_by_id(first).expect("the first").num_values(), 0);
    /// assert_eq!(file.to_string(), "[a]\n\tk = 1\n");
    /// assert!(file.section_mut_by_id(first).is_none());
    /// # Ok::<(), Box<dyn std::error::Error>>(())
    /// ```
    pub fn remove_section_by_id(&mut self, id: SectionId) -> Option<Section> {
        let place = self.place_of(id)?;
        Some(self.remove_section_at(place))
    }

    /// Removes the section at a place, where there is one.
    fn remove_section_at(&mut self, place: usize) -> Section {
        let removed = self.sys.seen().section(place).to_owned();
        self.sys.remove_section_at(place);
        removed
    }

    /// As [`File::remove_section`], the last whose metadata the filter keeps, if it keeps one.
    pub fn remove_section_filter(
        &mut self,
        name: impl AsRef<str>,
        subsection_name: impl AsBStrOpt,
        filter: impl FnMut(&Metadata) -> bool,
    ) -> Option<Section> {
        let last = self.last_of(name.as_ref(), subsection_name.as_bstr_opt(), filter);
        let place = last.ok()??.place();
        Some(self.remove_section_at(place))
    }

    /// Gives a key a value: in the last section of its names, whose last entry of the name gets it; entry and section are made if there are
    /// none. Returns the raw text of the value that was there, if there was an entry.
    ///
    /// # Errors
    ///
    /// A name can't be written, or the file would be too long. The file is then as it was.
    ///
    /// # Panics
    ///
    /// If the key is none.
    ///
    /// # Examples
    ///
    /// ```
    /// let mut file = gix_config::File::try_from("[a]\n\tk = 1\n")?;
    /// assert_eq!(file.set_raw_value("a.k", "2")?.expect("a value"), "1");
    /// assert_eq!(file.to_string(), "[a]\n\tk = 2\n");
    /// # Ok::<(), Box<dyn std::error::Error>>(())
    /// ```
    pub fn set_raw_value(
        &mut self,
        key: impl AsKey,
        new_value: impl AsBStr,
    ) -> Result<Option<BString>, set_raw_value::Error> {
        let key = key.as_key();
        let set = self.sys.set_value(&names_of(&key), new_value.as_bstr());
        set.map_err(set_raw_value::Error::of)
    }

    /// As [`File::set_raw_value`], by names.
    ///
    /// # Errors
    ///
    /// Those of [`File::set_raw_value`].
    pub fn set_raw_value_by(
        &mut self,
        section_name: impl AsRef<str>,
        subsection_name: impl AsBStrOpt,
        value_name: impl AsRef<str>,
        new_value: impl AsBStr,
    ) -> Result<Option<BString>, set_raw_value::Error> {
        let key = KeyRef {
            section_name: section_name.as_ref(),
            subsection_name: subsection_name.as_bstr_opt(),
            value_name: value_name.as_ref(),
        };
        self.set_raw_value(key, new_value)
    }

    /// As [`File::set_raw_value`], in the last section of the key's names whose metadata the filter keeps; one is made if it keeps none.
    ///
    /// # Errors
    ///
    /// Those of [`File::set_raw_value`].
    ///
    /// # Panics
    ///
    /// If the key is none.
    pub fn set_raw_value_filter(
        &mut self,
        key: impl AsKey,
        new_value: impl AsBStr,
        filter: impl FnMut(&Metadata) -> bool,
    ) -> Result<Option<BString>, set_raw_value::Error> {
        let key = key.as_key();
        // (a name that can't be a value's is refused before a section is made)
        value_name::checked(key.value_name)?;
        let (name, subsection_name) = (key.section_name, key.subsection_name);
        let last = self.last_of(name, subsection_name, filter);
        if let Some(place) = last.ok().flatten().map(|it| it.place()) {
            return Ok(SectionMut::at(self, place).set(key.value_name, new_value)?);
        }
        let mut made = self.clone();
        made.new_section(name, subsection_name.map(BString::from))?
            .set(key.value_name, new_value)?;
        *self = made;
        Ok(None)
    }

    /// As [`File::set_raw_value_filter`], by names.
    ///
    /// # Errors
    ///
    /// Those of [`File::set_raw_value`].
    pub fn set_raw_value_filter_by(
        &mut self,
        section_name: impl AsRef<str>,
        subsection_name: impl AsBStrOpt,
        value_name: impl AsRef<str>,
        new_value: impl AsBStr,
        filter: impl FnMut(&Metadata) -> bool,
    ) -> Result<Option<BString>, set_raw_value::Error> {
        let key = KeyRef {
            section_name: section_name.as_ref(),
            subsection_name: subsection_name.as_bstr_opt(),
            value_name: value_name.as_ref(),
        };
        self.set_raw_value_filter(key, new_value, filter)
    }

    /// Gives the last entry of a key another value; no entry is made.
    ///
    /// # Errors
    ///
    /// There is no such entry, the name can't be written, or the file would be too long. The file is then as it was.
    ///
    /// # Panics
    ///
    /// If the key is none.
    ///
    /// # Examples
    ///
    /// ```
    /// let mut file = gix_config::File::try_from("[a]\n\tk = 1\n")?;
    /// file.set_existing_raw_value("a.k", "2")?;
    /// assert!(file.set_existing_raw_value("a.j", "2").is_err());
    /// assert_eq!(file.to_string(), "[a]\n\tk = 2\n");
    /// # Ok::<(), Box<dyn std::error::Error>>(())
    /// ```
    pub fn set_existing_raw_value(
        &mut self,
        key: impl AsKey,
        new_value: impl AsBStr,
    ) -> Result<(), set_raw_value::Error> {
        let (key, new_value) = (key.as_key(), new_value.as_bstr());
        let set = self.sys.set_existing_value(&names_of(&key), new_value);
        set.map_err(set_raw_value::Error::of)
    }

    /// As [`File::set_existing_raw_value`], by names.
    ///
    /// # Errors
    ///
    /// Those of [`File::set_existing_raw_value`].
    pub fn set_existing_raw_value_by(
        &mut self,
        section_name: impl AsRef<str>,
        subsection_name: impl AsBStrOpt,
        value_name: impl AsRef<str>,
        new_value: impl AsBStr,
    ) -> Result<(), set_raw_value::Error> {
        let key = KeyRef {
            section_name: section_name.as_ref(),
            subsection_name: subsection_name.as_bstr_opt(),
            value_name: value_name.as_ref(),
        };
        self.set_existing_raw_value(key, new_value)
    }

    /// Gives the entries of a key other values, the first entry the first value and so on, up to the end of the shorter list; no entry is
    /// made.
    ///
    /// # Errors
    ///
    /// There is no such entry, or the name can't be written: the file is then as it was. The file would be too long: the entries before the
    /// one that was refused then have their values.
    ///
    /// # Panics
    ///
    /// If the key is none.
    ///
    /// # Examples
    ///
    /// ```
    /// let mut file = gix_config::File::try_from("[a]\n\tk = 1\n\tk = 2\n")?;
    /// file.set_existing_raw_multi_value("a.k", ["3", "4"])?;
    /// assert_eq!(file.raw_values("a.k")?, ["3", "4"]);
    /// # Ok::<(), Box<dyn std::error::Error>>(())
    /// ```
    pub fn set_existing_raw_multi_value<Iter, Item>(
        &mut self,
        key: impl AsKey,
        new_values: Iter,
    ) -> Result<(), set_raw_value::Error>
    where
        Iter: IntoIterator<Item = Item>,
        Item: AsBStr,
    {
        let (key, kept) = (key.as_key(), new_values.into_iter().collect::<Vec<Item>>());
        let values: Vec<_> = kept.iter().map(|it| sys::Text::of(it.as_bstr())).collect();
        let set = self.sys.set_existing_values(&names_of(&key), &values);
        set.map_err(set_raw_value::Error::of)
    }

    /// As [`File::set_existing_raw_multi_value`], by names.
    ///
    /// # Errors
    ///
    /// Those of [`File::set_existing_raw_multi_value`].
    pub fn set_existing_raw_multi_value_by<Iter, Item>(
        &mut self,
        section_name: impl AsRef<str>,
        subsection_name: impl AsBStrOpt,
        value_name: impl AsRef<str>,
        new_values: Iter,
    ) -> Result<(), set_raw_value::Error>
    where
        Iter: IntoIterator<Item = Item>,
        Item: AsBStr,
    {
        let key = KeyRef {
            section_name: section_name.as_ref(),
            subsection_name: subsection_name.as_bstr_opt(),
            value_name: value_name.as_ref(),
        };
        self.set_existing_raw_multi_value(key, new_values)
    }

    /// Gives all sections that have the name and the subsection another name and subsection.
    ///
    /// # Errors
    ///
    /// There is no such section, a name can't be written, or the file would be too long. The file is then as it was.
    ///
    /// # Examples
    ///
    /// ```
    /// let mut file = gix_config::File::try_from("[branch \"old\"]\n\tremote = o\n")?;
    /// file.rename_section("branch", Some("old".into()), "branch", Some("new".into()))?;
    /// assert_eq!(file.to_string(), "[branch \"new\"]\n\tremote = o\n");
    /// # Ok::<(), Box<dyn std::error::Error>>(())
    /// ```
    pub fn rename_section(
        &mut self,
        name: impl AsRef<str>,
        subsection_name: impl AsBStrOpt,
        new_name: impl AsRef<str>,
        new_subsection_name: impl IntoBStringOpt,
    ) -> Result<(), rename_section::Error> {
        let new_subsection = new_subsection_name.into_bstring_opt();
        let section = section_names(name.as_ref(), subsection_name.as_bstr_opt());
        let new_subsection = new_subsection.as_ref().map(AsBStr::as_bstr);
        let new_section = section_names(new_name.as_ref(), new_subsection);
        let renamed = self.sys.rename_section(&section, &new_section);
        renamed.map_err(rename_section::Error::of)
    }

    /// As [`File::rename_section`], the sections whose metadata the filter keeps.
    ///
    /// # Errors
    ///
    /// Those of [`File::rename_section`]; and the filter keeps none.
    pub fn rename_section_filter(
        &mut self,
        name: impl AsRef<str>,
        subsection_name: impl AsBStrOpt,
        new_name: impl AsRef<str>,
        new_subsection_name: impl IntoBStringOpt,
        filter: impl FnMut(&Metadata) -> bool,
    ) -> Result<(), rename_section::Error> {
        let kept = self.kept(name.as_ref(), subsection_name.as_bstr_opt(), filter)?;
        let places: Vec<_> = kept.iter().map(SectionRef::place).collect();
        if places.is_empty() {
            return Err(lookup::existing::Error::KeyMissing.into());
        }
        let new_subsection = new_subsection_name.into_bstring_opt();
        let mut renamed = self.clone();
        for place in places {
            SectionMut::at(&mut renamed, place).rename(&new_name, new_subsection.clone())?;
        }
        *self = renamed;
        Ok(())
    }

    /// Adds the sections of another file after all others.
    ///
    /// # Errors
    ///
    /// The file would have more than 4294967295 bytes, or as many sections. It is then as it was.
    ///
    /// # Examples
    ///
    /// ```
    /// let mut file = gix_config::File::try_from("[a]\n\tk = 1\n")?;
    /// file.append(gix_config::File::try_from("[a]\n\tk = 2\n")?)?;
    /// assert_eq!(file.raw_values("a.k")?, ["1", "2"]);
    /// # Ok::<(), Box<dyn std::error::Error>>(())
    /// ```
    pub fn append(&mut self, other: File) -> Result<&mut File, parse::span::Error> {
        match self.sys.append(&other.sys) {
            Ok(()) => Ok(self),
            Err(parse::span::Error::NUMBER) => Err(parse::span::Error),
            Err(number) => sys::unforeseen(number),
        }
    }

    /// The text of the file as it was read, but for what was edited: without a byte order mark, and with missing line endings put in.
    #[must_use]
    pub fn to_bstring(&self) -> BString {
        self.sys.text(None).copy()
    }

    /// The first line ending of the text, or LF if it has none.
    #[must_use]
    pub fn detect_newline_style(&self) -> &BStr {
        let text = self.sys.text(None);
        let line = bstr::ByteSlice::lines_with_terminator(text.bytes()).next();
        match line {
            Some(line) if line.ends_with(b"\r\n") => "\r\n".into(),
            _ => "\n".into(),
        }
    }

    /// Writes the text of the file.
    ///
    /// # Errors
    ///
    /// Those of the writer.
    ///
    /// # Examples
    ///
    /// ```
    /// let file = gix_config::File::try_from("[a]\n\tk = 1 # one\n")?;
    /// let mut text = Vec::new();
    /// file.write_to(&mut text)?;
    /// assert_eq!(text, b"[a]\n\tk = 1 # one\n");
    /// # Ok::<(), Box<dyn std::error::Error>>(())
    /// ```
    pub fn write_to(&self, mut out: impl io::Write) -> io::Result<()> {
        out.write_all(self.sys.text(None).bytes())
    }
}

impl Default for File {
    /// An empty file.
    fn default() -> File {
        File::try_from("").expect("an empty text is one of configuration")
    }
}

/// Whether both have the same sections in order, with the same keys that mean the same; names are compared without ASCII case.
impl PartialEq for File {
    fn eq(&self, other: &File) -> bool {
        self.sys.is_equal(&other.sys)
    }
}

impl Eq for File {}

impl Clone for File {
    fn clone(&self) -> File {
        File {
            sys: self.sys.copy(),
        }
    }
}

/// The file's text.
impl From<File> for BString {
    fn from(file: File) -> BString {
        file.to_bstring()
    }
}

impl fmt::Display for File {
    fn fmt(&self, f: &mut fmt::Formatter<'_>) -> fmt::Result {
        fmt::Display::fmt(self.sys.text(None).bytes().as_bstr(), f)
    }
}

impl fmt::Debug for File {
    fn fmt(&self, f: &mut fmt::Formatter<'_>) -> fmt::Result {
        f.debug_tuple("File")
            .field(&self.sys.text(None).bytes().as_bstr())
            .finish()
    }
}

impl FromStr for File {
    type Err = parse::Error;

    fn from_str(text: &str) -> Result<File, parse::Error> {
        File::parsed(text.as_bytes())
    }
}

impl TryFrom<&str> for File {
    type Error = parse::Error;

    fn try_from(text: &str) -> Result<File, parse::Error> {
        File::parsed(text.as_bytes())
    }
}

impl TryFrom<&BStr> for File {
    type Error = parse::Error;

    fn try_from(text: &BStr) -> Result<File, parse::Error> {
        File::parsed(text)
    }
}
