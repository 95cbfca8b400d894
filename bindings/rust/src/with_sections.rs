//! Lookups that return with a value the section that has it.
use bstr::BString;

use crate::file::{key_of, File};
use crate::key::AsKey;
use crate::lookup::{self, existing};
use crate::meta::Metadata;
use crate::section::SectionRef;
use crate::text::AsBStrOpt;

/// A value, and the section that has it.
type Found<'a, T> = (T, SectionRef<'a>);

/// A value with its section, in a type.
fn converted<T: TryFrom<BString>>(
    (value, section): Found<'_, BString>,
) -> Result<Found<'_, T>, lookup::Error<T::Error>> {
    match T::try_from(value) {
        Ok(value) => Ok((value, section)),
        Err(error) => Err(lookup::Error::FailedConversion(error)),
    }
}

/// Lookups that return with a value the section that has it.
impl File {
    /// As [`File::raw_value`], with the value's section.
    ///
    /// # Errors
    ///
    /// Those of [`File::raw_value`].
    ///
    /// # Examples
    ///
    /// ```
    /// let file = gix_config::File::try_from("[a]\n\tk = 1\n[a]\n")?;
    /// let (value, section) = file.raw_value_with_section("a.k")?;
    /// assert_eq!((value, section.num_values()), ("1".into(), 1));
    /// # Ok::<(), Box<dyn std::error::Error>>(())
    /// ```
    pub fn raw_value_with_section(
        &self,
        key: impl AsKey,
    ) -> Result<(BString, SectionRef<'_>), existing::Error> {
        self.raw_value_with_section_filter(key, |_| true)
    }

    /// As [`File::raw_value_with_section`], by names.
    ///
    /// # Errors
    ///
    /// Those of [`File::raw_value`].
    pub fn raw_value_with_section_by(
        &self,
        section_name: impl AsRef<str>,
        subsection_name: impl AsBStrOpt,
        value_name: impl AsRef<str>,
    ) -> Result<(BString, SectionRef<'_>), existing::Error> {
        self.raw_value_with_section_filter_by(section_name, subsection_name, value_name, |_| true)
    }

    /// As [`File::raw_value_filter`], with the value's section.
    ///
    /// # Errors
    ///
    /// Those of [`File::raw_value_filter`].
    pub fn raw_value_with_section_filter(
        &self,
        key: impl AsKey,
        filter: impl FnMut(&Metadata) -> bool,
    ) -> Result<(BString, SectionRef<'_>), existing::Error> {
        let key = key_of(&key)?;
        let (section_name, value_name) = (key.section_name, key.value_name);
        self.raw_value_with_section_filter_by(section_name, key.subsection_name, value_name, filter)
    }

    /// As [`File::raw_value_with_section_filter`], by names.
    ///
    /// # Errors
    ///
    /// Those of [`File::raw_value_filter`].
    pub fn raw_value_with_section_filter_by(
        &self,
        section_name: impl AsRef<str>,
        subsection_name: impl AsBStrOpt,
        value_name: impl AsRef<str>,
        filter: impl FnMut(&Metadata) -> bool,
    ) -> Result<(BString, SectionRef<'_>), existing::Error> {
        let subsection_name = subsection_name.as_bstr_opt();
        let kept = self.kept(section_name.as_ref(), subsection_name, filter)?;
        // (the last one with a value decides, so that an entry without one leaves it to the sections before)
        let mut last = kept.into_iter().rev();
        let found = last.find_map(|it| Some((it.value(value_name.as_ref())?, it)));
        found.ok_or(existing::Error::KeyMissing)
    }

    /// As [`File::raw_values`], each with its section.
    ///
    /// # Errors
    ///
    /// Those of [`File::raw_value`].
    pub fn raw_values_with_sections(
        &self,
        key: impl AsKey,
    ) -> Result<Vec<(BString, SectionRef<'_>)>, existing::Error> {
        self.raw_values_with_sections_filter(key, |_| true)
    }

    /// As [`File::raw_values_with_sections`], by names.
    ///
    /// # Errors
    ///
    /// Those of [`File::raw_value`].
    pub fn raw_values_with_sections_by(
        &self,
        section_name: impl AsRef<str>,
        subsection_name: impl AsBStrOpt,
        value_name: impl AsRef<str>,
    ) -> Result<Vec<(BString, SectionRef<'_>)>, existing::Error> {
        self.raw_values_with_sections_filter_by(section_name, subsection_name, value_name, |_| true)
    }

    /// As [`File::raw_values_filter`], each with its section.
    ///
    /// # Errors
    ///
    /// Those of [`File::raw_value_filter`].
    pub fn raw_values_with_sections_filter(
        &self,
        key: impl AsKey,
        filter: impl FnMut(&Metadata) -> bool,
    ) -> Result<Vec<(BString, SectionRef<'_>)>, existing::Error> {
        let key = key_of(&key)?;
        let (section_name, value_name) = (key.section_name, key.value_name);
        self.raw_values_with_sections_filter_by(
            section_name,
            key.subsection_name,
            value_name,
            filter,
        )
    }

    /// As [`File::raw_values_with_sections_filter`], by names.
    ///
    /// # Errors
    ///
    /// Those of [`File::raw_value_filter`].
    pub fn raw_values_with_sections_filter_by(
        &self,
        section_name: impl AsRef<str>,
        subsection_name: impl AsBStrOpt,
        value_name: impl AsRef<str>,
        filter: impl FnMut(&Metadata) -> bool,
    ) -> Result<Vec<(BString, SectionRef<'_>)>, existing::Error> {
        let subsection_name = subsection_name.as_bstr_opt();
        let kept = self.kept(section_name.as_ref(), subsection_name, filter)?;
        let mut found = Vec::new();
        for section in kept {
            let values = section.values(value_name.as_ref());
            found.extend(values.into_iter().map(|value| (value, section)));
        }
        if found.is_empty() {
            return Err(existing::Error::KeyMissing);
        }
        Ok(found)
    }

    /// As [`File::value`], with the value's section.
    ///
    /// # Errors
    ///
    /// Those of [`File::value`].
    pub fn value_with_section<T: TryFrom<BString>>(
        &self,
        key: impl AsKey,
    ) -> Result<(T, SectionRef<'_>), lookup::Error<T::Error>> {
        converted(self.raw_value_with_section(key)?)
    }

    /// As [`File::value_with_section`], by names.
    ///
    /// # Errors
    ///
    /// Those of [`File::value`].
    pub fn value_with_section_by<T: TryFrom<BString>>(
        &self,
        section_name: impl AsRef<str>,
        subsection_name: impl AsBStrOpt,
        value_name: impl AsRef<str>,
    ) -> Result<(T, SectionRef<'_>), lookup::Error<T::Error>> {
        converted(self.raw_value_with_section_by(section_name, subsection_name, value_name)?)
    }

    /// As [`File::values`], each with its section.
    ///
    /// # Errors
    ///
    /// Those of [`File::values`].
    pub fn values_with_sections<T: TryFrom<BString>>(
        &self,
        key: impl AsKey,
    ) -> Result<Vec<(T, SectionRef<'_>)>, lookup::Error<T::Error>> {
        let found = self.raw_values_with_sections(key)?;
        found.into_iter().map(converted).collect()
    }

    /// As [`File::values_with_sections`], by names.
    ///
    /// # Errors
    ///
    /// Those of [`File::values`].
    pub fn values_with_sections_by<T: TryFrom<BString>>(
        &self,
        section_name: impl AsRef<str>,
        subsection_name: impl AsBStrOpt,
        value_name: impl AsRef<str>,
    ) -> Result<Vec<(T, SectionRef<'_>)>, lookup::Error<T::Error>> {
        let found = self.raw_values_with_sections_by(section_name, subsection_name, value_name)?;
        found.into_iter().map(converted).collect()
    }
}
