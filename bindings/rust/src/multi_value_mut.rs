//! Editors of all values of a key.
use bstr::{BStr, BString};

use crate::file::{key_of, names, File};
use crate::key::AsKey;
use crate::lookup::existing;
use crate::meta::Metadata;
use crate::parse::section::value_name;
use crate::parse::span;
use crate::section::SectionRef;
use crate::sys;
use crate::text::{AsBStr, AsBStrOpt};
use crate::view::is_named;

/// An editor of all entries of a key, with `=` or without it: in the order of the numbers of their sections, and in each section in the order
/// of its entries.
#[derive(Debug)]
pub struct MultiValueMut<'a> {
    file: &'a mut File,
    section_name: String,
    subsection_name: Option<BString>,
    value_name: String,
    /// Which of the key's entries in the whole file these are, in order.
    indices: Vec<usize>,
}

/// The entries of a key in sections, in the order of these sections' numbers: each with its section and what it means.
fn entries_of<'a>(
    sections: impl Iterator<Item = SectionRef<'a>>,
    value_name: &'a str,
) -> impl Iterator<Item = (SectionRef<'a>, Option<&'a BStr>)> {
    let mut sections: Vec<_> = sections.collect();
    sections.sort_by_key(SectionRef::id);
    sections.into_iter().flat_map(move |section| {
        let named = section
            .entries()
            .filter(move |it| is_named(it.0, value_name));
        named.map(move |(_, value)| (section, value))
    })
}

impl MultiValueMut<'_> {
    fn subsection_name(&self) -> Option<&BStr> {
        self.subsection_name.as_ref().map(AsBStr::as_bstr)
    }

    /// What the values mean, in order; one without `=` is empty.
    ///
    /// # Errors
    ///
    /// All were deleted.
    pub fn get(&self) -> Result<Vec<BString>, existing::Error> {
        let named = self
            .file
            .named(&self.section_name, self.subsection_name())?;
        let values: Vec<_> = entries_of(named, &self.value_name).collect();
        let values = self.indices.iter().map(|it| values[*it].1);
        let values: Vec<_> = values.map(|it| it.unwrap_or_default().into()).collect();
        if values.is_empty() {
            return Err(existing::Error::KeyMissing);
        }
        Ok(values)
    }

    /// How many entries there are.
    #[must_use]
    pub fn len(&self) -> usize {
        self.indices.len()
    }

    /// Whether all were deleted.
    #[must_use]
    pub fn is_empty(&self) -> bool {
        self.indices.is_empty()
    }

    /// As [`MultiValueMut::set_at`].
    ///
    /// # Errors
    ///
    /// Those of [`MultiValueMut::set_at`].
    ///
    /// # Panics
    ///
    /// There is no such entry.
    pub fn set_string_at(
        &mut self,
        index: usize,
        value: impl AsRef<str>,
    ) -> Result<(), span::Error> {
        self.set_at(index, value.as_ref())
    }

    /// Gives the entry at an index another value: it is written anew, with the name of the key.
    ///
    /// # Errors
    ///
    /// The file would be too long. It is then as it was.
    ///
    /// # Panics
    ///
    /// There is no such entry.
    pub fn set_at(&mut self, index: usize, value: impl AsBStr) -> Result<(), span::Error> {
        let subsection_name = self.subsection_name.as_ref().map(AsBStr::as_bstr);
        let key = names(&self.section_name, subsection_name, &self.value_name);
        let set = self
            .file
            .sys
            .set_nth_value(&key, self.indices[index], value.as_bstr());
        set.map_err(|number| match number {
            span::Error::NUMBER => span::Error,
            number => sys::unforeseen(number),
        })
    }

    /// Gives the entries other values: the first entry the first value, and so on, up to the end of the shorter list.
    ///
    /// # Errors
    ///
    /// The file would be too long. The entries before the one that was refused then have their values.
    pub fn set_values<Iter, Item>(&mut self, values: Iter) -> Result<(), span::Error>
    where
        Iter: IntoIterator<Item = Item>,
        Item: AsBStr,
    {
        let numbered = (0..self.len()).zip(values);
        for (index, value) in numbered {
            self.set_at(index, value)?;
        }
        Ok(())
    }

    /// Gives all entries the same value.
    ///
    /// # Errors
    ///
    /// Those of [`MultiValueMut::set_values`].
    pub fn set_all(&mut self, input: impl AsBStr) -> Result<(), span::Error> {
        let input = input.as_bstr();
        (0..self.len()).try_for_each(|index| self.set_at(index, input))
    }

    /// Deletes the entry at an index: its name, `=` and value. The entries behind it then have an index that is one less.
    ///
    /// # Panics
    ///
    /// There is no such entry.
    pub fn delete(&mut self, index: usize) {
        let gone = self.indices.remove(index);
        for behind in &mut self.indices[index..] {
            *behind -= 1;
        }
        let subsection_name = self.subsection_name.as_ref().map(AsBStr::as_bstr);
        let key = names(&self.section_name, subsection_name, &self.value_name);
        self.file.sys.delete_nth_value(&key, gone);
    }

    /// Deletes all entries, the last one first.
    pub fn delete_all(&mut self) {
        for index in (0..self.len()).rev() {
            self.delete(index);
        }
    }
}

/// Editors of all values of a key.
impl File {
    /// An editor of all entries of a key.
    ///
    /// # Errors
    ///
    /// There is no such section, subsection or entry; the name can't be a value's, or the key is none.
    ///
    /// # Examples
    ///
    /// ```
    /// let mut file = gix_config::File::try_from("[a]\n\tk = 1 ; one\n\tk\n[A]\n\tk = 3\n")?;
    /// let mut values = file.raw_values_mut("a.k")?;
    /// assert_eq!(values.get()?, ["1", "", "3"]);
    /// values.set_at(0, "x")?;
    /// values.delete(1);
    /// assert_eq!(values.get()?, ["x", "3"]);
    /// assert_eq!(file.to_string(), "[a]\n\tk = x ; one\n\t\n[A]\n\tk = 3\n");
    /// # Ok::<(), Box<dyn std::error::Error>>(())
    /// ```
    pub fn raw_values_mut(
        &mut self,
        key: impl AsKey,
    ) -> Result<MultiValueMut<'_>, existing::Error> {
        self.raw_values_mut_filter(key, |_| true)
    }

    /// As [`File::raw_values_mut`], by names.
    ///
    /// # Errors
    ///
    /// Those of [`File::raw_values_mut`].
    pub fn raw_values_mut_by(
        &mut self,
        section_name: impl AsRef<str>,
        subsection_name: impl AsBStrOpt,
        value_name: impl AsRef<str>,
    ) -> Result<MultiValueMut<'_>, existing::Error> {
        self.raw_values_mut_filter_by(section_name, subsection_name, value_name, |_| true)
    }

    /// As [`File::raw_values_mut`], in the sections whose metadata the filter keeps.
    ///
    /// # Errors
    ///
    /// There is no such section or subsection, or no such entry in those that are kept; or the key is none.
    pub fn raw_values_mut_filter(
        &mut self,
        key: impl AsKey,
        filter: impl FnMut(&Metadata) -> bool,
    ) -> Result<MultiValueMut<'_>, existing::Error> {
        let key = key_of(&key)?;
        let (section_name, value_name) = (key.section_name, key.value_name);
        self.raw_values_mut_filter_by(section_name, key.subsection_name, value_name, filter)
    }

    /// As [`File::raw_values_mut_filter`], by names.
    ///
    /// # Errors
    ///
    /// Those of [`File::raw_values_mut_filter`].
    pub fn raw_values_mut_filter_by(
        &mut self,
        section_name: impl AsRef<str>,
        subsection_name: impl AsBStrOpt,
        value_name: impl AsRef<str>,
        filter: impl FnMut(&Metadata) -> bool,
    ) -> Result<MultiValueMut<'_>, existing::Error> {
        let (section_name, value_name) = (section_name.as_ref(), value_name.as_ref());
        let subsection_name = subsection_name.as_bstr_opt();
        let kept = self.kept(section_name, subsection_name, filter)?;
        value_name::checked(value_name)?;
        let mut kept: Vec<_> = kept.iter().map(SectionRef::id).collect();
        kept.sort_unstable();
        let named = self.named(section_name, subsection_name)?;
        let entries = entries_of(named, value_name).enumerate();
        let entries = entries.filter(|(_, (section, _))| kept.binary_search(&section.id()).is_ok());
        let indices: Vec<_> = entries.map(|(index, _)| index).collect();
        if indices.is_empty() {
            return Err(existing::Error::KeyMissing);
        }
        Ok(MultiValueMut {
            section_name: section_name.to_owned(),
            subsection_name: subsection_name.map(BString::from),
            value_name: value_name.to_owned(),
            indices,
            file: self,
        })
    }
}
