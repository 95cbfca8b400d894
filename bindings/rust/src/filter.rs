//! Lookups in some of a file's sections, and their text.
use std::borrow::Cow;
use std::io;

use bstr::{BStr, BString};

use crate::file::{key_of, File};
use crate::key::AsKey;
use crate::meta::Metadata;
use crate::section::SectionRef;
use crate::source::Trust;
use crate::text::{AsBStr, AsBStrOpt};
use crate::value::{self, Boolean};
use crate::{lookup, sys};

/// What a program's filter says of a section of a file: whether it is kept.
type Answer<'a> = (SectionRef<'a>, bool);

/// The library's filter that says the same, if there is one.
fn same(answers: &[Answer<'_>]) -> Option<sys::Filter> {
    let kept = answers.iter().filter(|it| it.1).map(|it| it.0.meta());
    // (no filter that keeps these keeps fewer others)
    let filter = sys::Filter {
        sources: kept.clone().fold(0, |sum, meta| sum | meta.source.number()),
        least_trust: kept
            .map(|meta| meta.trust)
            .min()
            .unwrap_or(Trust::Full)
            .number(),
    };
    let keeps = |meta: &Metadata| {
        filter.sources & meta.source.number() != 0 && meta.trust.number() >= filter.least_trust
    };
    let is_same = answers
        .iter()
        .all(|(section, kept)| keeps(section.meta()) == *kept);
    is_same.then_some(filter)
}

/// The sections of a file that a program's filter keeps, as the library takes them.
struct Kept<'a> {
    file: Cow<'a, File>,
    filter: sys::Filter,
}

impl<'a> Kept<'a> {
    /// Those of the answers: in the file itself if a filter of the library says the same, else in a copy where of these sections they alone
    /// are trusted.
    fn of(file: &'a File, answers: &[Answer<'_>]) -> Self {
        if let Some(filter) = same(answers) {
            let file = Cow::Borrowed(file);
            return Kept { file, filter };
        }
        let mut copy = file.clone();
        for (section, kept) in answers {
            let trust = if *kept { Trust::Full } else { Trust::Reduced };
            if section.meta().trust != trust {
                copy.sys.set_trust_at(section.place(), trust.number());
            }
        }
        let filter = sys::Filter {
            sources: sys::SOURCES_ALL,
            least_trust: Trust::Full.number(),
        };
        let file = Cow::Owned(copy);
        Kept { file, filter }
    }
}

impl File {
    /// The sections of the names whose metadata a filter keeps, in order. It is asked of each once, in order.
    pub(crate) fn kept(
        &self,
        section_name: &str,
        subsection_name: Option<&BStr>,
        mut filter: impl FnMut(&Metadata) -> bool,
    ) -> Result<Vec<SectionRef<'_>>, lookup::existing::Error> {
        let named = self.named(section_name, subsection_name)?;
        Ok(named.filter(|it| filter(it.meta())).collect())
    }
}

/// Lookups in the sections whose metadata a filter keeps. It is asked of each section of the key's names once, in order, before the lookup.
impl File {
    /// As [`File::raw_value`], in the sections whose metadata the filter keeps.
    ///
    /// # Errors
    ///
    /// There is no such section or subsection, or no such value in those that are kept; or the key is none.
    pub fn raw_value_filter(
        &self,
        key: impl AsKey,
        filter: impl FnMut(&Metadata) -> bool,
    ) -> Result<BString, lookup::existing::Error> {
        let key = key_of(&key)?;
        self.raw_value_filter_by(
            key.section_name,
            key.subsection_name,
            key.value_name,
            filter,
        )
    }

    /// As [`File::raw_value_filter`], by names.
    ///
    /// # Errors
    ///
    /// Those of [`File::raw_value_filter`].
    pub fn raw_value_filter_by(
        &self,
        section_name: impl AsRef<str>,
        subsection_name: impl AsBStrOpt,
        value_name: impl AsRef<str>,
        filter: impl FnMut(&Metadata) -> bool,
    ) -> Result<BString, lookup::existing::Error> {
        let (section, value) = (section_name, value_name);
        let found =
            self.raw_value_with_section_filter_by(section, subsection_name, value, filter)?;
        Ok(found.0)
    }

    /// As [`File::raw_values`], in the sections whose metadata the filter keeps.
    ///
    /// # Errors
    ///
    /// Those of [`File::raw_value_filter`].
    pub fn raw_values_filter(
        &self,
        key: impl AsKey,
        filter: impl FnMut(&Metadata) -> bool,
    ) -> Result<Vec<BString>, lookup::existing::Error> {
        let key = key_of(&key)?;
        self.raw_values_filter_by(
            key.section_name,
            key.subsection_name,
            key.value_name,
            filter,
        )
    }

    /// As [`File::raw_values_filter`], by names.
    ///
    /// # Errors
    ///
    /// Those of [`File::raw_value_filter`].
    pub fn raw_values_filter_by(
        &self,
        section_name: impl AsRef<str>,
        subsection_name: impl AsBStrOpt,
        value_name: impl AsRef<str>,
        filter: impl FnMut(&Metadata) -> bool,
    ) -> Result<Vec<BString>, lookup::existing::Error> {
        let (section, value) = (section_name, value_name);
        let found =
            self.raw_values_with_sections_filter_by(section, subsection_name, value, filter)?;
        Ok(found.into_iter().map(|it| it.0).collect())
    }

    /// As [`File::string`], in the sections whose metadata the filter keeps.
    ///
    /// # Examples
    ///
    /// ```
    /// use gix_config::{File, Trust};
    /// let mut file = File::try_from("[core]\n\teditor = vi\n[core]\n\teditor = emacs\n")?;
    /// file.section_mut("core", None)?.set_trust(Trust::Reduced);
    /// let trusted = file.string_filter("core.editor", |meta| meta.trust == Trust::Full);
    /// assert_eq!(trusted, Some("vi".into()));
    /// # Ok::<(), Box<dyn std::error::Error>>(())
    /// ```
    #[must_use]
    pub fn string_filter(
        &self,
        key: impl AsKey,
        filter: impl FnMut(&Metadata) -> bool,
    ) -> Option<BString> {
        self.raw_value_filter(key, filter).ok()
    }

    /// As [`File::string_filter`], by names.
    #[must_use]
    pub fn string_filter_by(
        &self,
        section_name: impl AsRef<str>,
        subsection_name: impl AsBStrOpt,
        value_name: impl AsRef<str>,
        filter: impl FnMut(&Metadata) -> bool,
    ) -> Option<BString> {
        self.raw_value_filter_by(section_name, subsection_name, value_name, filter)
            .ok()
    }

    /// As [`File::strings`], in the sections whose metadata the filter keeps.
    #[must_use]
    pub fn strings_filter(
        &self,
        key: impl AsKey,
        filter: impl FnMut(&Metadata) -> bool,
    ) -> Option<Vec<BString>> {
        self.raw_values_filter(key, filter).ok()
    }

    /// As [`File::strings_filter`], by names.
    #[must_use]
    pub fn strings_filter_by(
        &self,
        section_name: impl AsRef<str>,
        subsection_name: impl AsBStrOpt,
        value_name: impl AsRef<str>,
        filter: impl FnMut(&Metadata) -> bool,
    ) -> Option<Vec<BString>> {
        self.raw_values_filter_by(section_name, subsection_name, value_name, filter)
            .ok()
    }

    /// As [`File::boolean`], in the sections whose metadata the filter keeps.
    ///
    /// # Errors
    ///
    /// The value is no boolean.
    pub fn boolean_filter(
        &self,
        key: impl AsKey,
        filter: impl FnMut(&Metadata) -> bool,
    ) -> Result<Option<bool>, value::Error> {
        match key.try_as_key() {
            Some(key) => self.boolean_filter_by(
                key.section_name,
                key.subsection_name,
                key.value_name,
                filter,
            ),
            None => Ok(None),
        }
    }

    /// As [`File::boolean_filter`], by names.
    ///
    /// # Errors
    ///
    /// The value is no boolean.
    pub fn boolean_filter_by(
        &self,
        section_name: impl AsRef<str>,
        subsection_name: impl AsBStrOpt,
        value_name: impl AsRef<str>,
        filter: impl FnMut(&Metadata) -> bool,
    ) -> Result<Option<bool>, value::Error> {
        let subsection_name = subsection_name.as_bstr_opt();
        let kept = self.kept(section_name.as_ref(), subsection_name, filter);
        let kept = kept.unwrap_or_default();
        let mut values = kept.iter().rev();
        match values.find_map(|it| it.value_implicit(value_name.as_ref())) {
            Some(Some(value)) => Ok(Some(Boolean::try_from(value)?.0)),
            Some(None) => Ok(Some(true)),
            None => Ok(None),
        }
    }

    /// As [`File::integer`], in the sections whose metadata the filter keeps.
    ///
    /// # Errors
    ///
    /// The value is no integer of 64 bits.
    pub fn integer_filter(
        &self,
        key: impl AsKey,
        filter: impl FnMut(&Metadata) -> bool,
    ) -> Result<Option<i64>, value::Error> {
        match key.try_as_key() {
            Some(key) => self.integer_filter_by(
                key.section_name,
                key.subsection_name,
                key.value_name,
                filter,
            ),
            None => Ok(None),
        }
    }

    /// As [`File::integer_filter`], by names.
    ///
    /// # Errors
    ///
    /// The value is no integer of 64 bits.
    pub fn integer_filter_by(
        &self,
        section_name: impl AsRef<str>,
        subsection_name: impl AsBStrOpt,
        value_name: impl AsRef<str>,
        filter: impl FnMut(&Metadata) -> bool,
    ) -> Result<Option<i64>, value::Error> {
        let found = self.string_filter_by(section_name, subsection_name, value_name, filter);
        let found = found.map(|value| value::integer_of(value.as_bstr()));
        found.transpose()
    }

    /// Writes the text of what comes before the first section, and of the sections that the filter keeps, which is asked of each once, in
    /// order.
    ///
    /// # Errors
    ///
    /// Those of the writer.
    pub fn write_to_filter(
        &self,
        mut out: impl io::Write,
        mut filter: impl FnMut(&SectionRef<'_>) -> bool,
    ) -> io::Result<()> {
        let answers = self.sections().map(|it| (it, filter(&it)));
        let kept = Kept::of(self, &answers.collect::<Vec<_>>());
        out.write_all(kept.file.sys.text(Some(&kept.filter)).bytes())
    }
}
