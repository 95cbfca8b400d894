//! Editors of values.
use bstr::{BStr, BString};

use crate::file::{key_of, File};
use crate::key::AsKey;
use crate::lookup::existing;
use crate::meta::Metadata;
use crate::parse::section::value_name;
use crate::parse::span;
use crate::section::{SectionMut, SectionRef};
use crate::text::{AsBStr, AsBStrOpt};

/// An editor of the last entry of a name in a section.
#[derive(Debug)]
pub struct ValueMut<'a> {
    section: SectionMut<'a>,
    value_name: String,
    /// Whether it wasn't deleted.
    is_there: bool,
}

impl<'a> ValueMut<'a> {
    /// What the value means.
    ///
    /// # Errors
    ///
    /// The entry has no `=`, or it was deleted.
    pub fn get(&self) -> Result<BString, existing::Error> {
        let found = self.section.value_implicit(&self.value_name);
        let found = found.flatten().filter(|_| self.is_there);
        found.ok_or(existing::Error::KeyMissing)
    }

    /// Gives the entry another value; one that was deleted is made anew, after all others.
    ///
    /// # Errors
    ///
    /// The file would be too long. It is then as it was.
    pub fn set(&mut self, input: impl AsBStr) -> Result<(), span::Error> {
        let input: &BStr = input.as_bstr();
        let set = if self.is_there {
            self.section.set(&self.value_name, input).map(drop)
        } else {
            self.section.push(&self.value_name, input).map(drop)
        };
        set.map_err(|error| match error {
            crate::section::value::Error::Span(error) => error,
            crate::section::value::Error::ValueName(error) => {
                crate::sys::unforeseen(error.number())
            }
        })?;
        self.is_there = true;
        Ok(())
    }

    /// As [`ValueMut::set`].
    ///
    /// # Errors
    ///
    /// Those of [`ValueMut::set`].
    pub fn set_string(&mut self, input: impl AsRef<str>) -> Result<(), span::Error> {
        self.set(input.as_ref())
    }

    /// Removes the entry.
    pub fn delete(&mut self) {
        if self.is_there {
            self.section.remove(&self.value_name);
            self.is_there = false;
        }
    }

    /// Its section, as it is until the next edit.
    #[must_use]
    pub fn section(&self) -> SectionRef<'_> {
        self.section.section()
    }

    /// An editor of its section.
    #[must_use]
    pub fn into_section_mut(self) -> SectionMut<'a> {
        self.section
    }
}

/// Editors of values.
impl File {
    /// An editor of the last entry of a key.
    ///
    /// # Errors
    ///
    /// There is no such section, subsection or entry; the name can't be a value's, or the key is none.
    ///
    /// # Examples
    ///
    /// ```
    /// let mut file = gix_config::File::try_from("[core]\n\teditor = vi ; was ed\n")?;
    /// let mut editor = file.raw_value_mut("core.editor")?;
    /// assert_eq!(editor.get()?, "vi");
    /// editor.set("emacs")?;
    /// assert_eq!(file.to_string(), "[core]\n\teditor = emacs ; was ed\n");
    /// # Ok::<(), Box<dyn std::error::Error>>(())
    /// ```
    pub fn raw_value_mut(&mut self, key: impl AsKey) -> Result<ValueMut<'_>, existing::Error> {
        self.raw_value_mut_filter(key, |_| true)
    }

    /// As [`File::raw_value_mut`], by names.
    ///
    /// # Errors
    ///
    /// Those of [`File::raw_value_mut`].
    pub fn raw_value_mut_by(
        &mut self,
        section_name: impl AsRef<str>,
        subsection_name: impl AsBStrOpt,
        value_name: impl AsRef<str>,
    ) -> Result<ValueMut<'_>, existing::Error> {
        self.raw_value_mut_filter_by(section_name, subsection_name, value_name, |_| true)
    }

    /// As [`File::raw_value_mut`], in the sections whose metadata the filter keeps.
    ///
    /// # Errors
    ///
    /// There is no such section or subsection, or no such entry in those that are kept; or the key is none.
    pub fn raw_value_mut_filter(
        &mut self,
        key: impl AsKey,
        filter: impl FnMut(&Metadata) -> bool,
    ) -> Result<ValueMut<'_>, existing::Error> {
        let key = key_of(&key)?;
        let (section_name, value_name) = (key.section_name, key.value_name);
        self.raw_value_mut_filter_by(section_name, key.subsection_name, value_name, filter)
    }

    /// As [`File::raw_value_mut_filter`], by names.
    ///
    /// # Errors
    ///
    /// Those of [`File::raw_value_mut_filter`].
    pub fn raw_value_mut_filter_by(
        &mut self,
        section_name: impl AsRef<str>,
        subsection_name: impl AsBStrOpt,
        value_name: impl AsRef<str>,
        filter: impl FnMut(&Metadata) -> bool,
    ) -> Result<ValueMut<'_>, existing::Error> {
        let subsection_name = subsection_name.as_bstr_opt();
        let kept = self.kept(section_name.as_ref(), subsection_name, filter)?;
        value_name::checked(value_name.as_ref())?;
        let mut last = kept.iter().rev();
        let found = last.find(|it| it.contains_value_name(value_name.as_ref()));
        let place = found.ok_or(existing::Error::KeyMissing)?.place();
        Ok(ValueMut {
            section: SectionMut::at(self, place),
            value_name: value_name.as_ref().to_owned(),
            is_there: true,
        })
    }
}
