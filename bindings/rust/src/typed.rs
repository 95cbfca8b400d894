//! Values in a type that the program names.
use bstr::{BString, ByteSlice};

use crate::file::{names_of, typed};
use crate::key::{AsKey, KeyRef};
use crate::meta::Metadata;
use crate::path::Path;
use crate::text::AsBStrOpt;
use crate::{lookup, value, File};

/// Values in a type that is made of their bytes.
impl File {
    /// The last value of a key in a type.
    ///
    /// # Errors
    ///
    /// There is no such section, subsection or value, or the type refuses the value.
    ///
    /// # Panics
    ///
    /// If the key is none.
    ///
    /// # Examples
    ///
    /// ```
    /// let file = gix_config::File::try_from("[core]\n\teditor = vi\n")?;
    /// let editor: Vec<u8> = file.value("core.editor")?;
    /// assert_eq!(editor, b"vi");
    /// # Ok::<(), Box<dyn std::error::Error>>(())
    /// ```
    pub fn value<T: TryFrom<BString>>(
        &self,
        key: impl AsKey,
    ) -> Result<T, lookup::Error<T::Error>> {
        let value = self.raw_value(key.as_key())?;
        T::try_from(value).map_err(lookup::Error::FailedConversion)
    }

    /// As [`File::value`], by names.
    ///
    /// # Errors
    ///
    /// Those of [`File::value`].
    pub fn value_by<T: TryFrom<BString>>(
        &self,
        section_name: impl AsRef<str>,
        subsection_name: impl AsBStrOpt,
        value_name: impl AsRef<str>,
    ) -> Result<T, lookup::Error<T::Error>> {
        let value = self.raw_value_by(section_name, subsection_name, value_name)?;
        T::try_from(value).map_err(lookup::Error::FailedConversion)
    }

    /// As [`File::value`], if there is one.
    ///
    /// # Errors
    ///
    /// The type refuses the value.
    ///
    /// # Panics
    ///
    /// If the key is none.
    pub fn try_value<T: TryFrom<BString>>(&self, key: impl AsKey) -> Result<Option<T>, T::Error> {
        self.string(key.as_key()).map(T::try_from).transpose()
    }

    /// As [`File::try_value`], by names.
    ///
    /// # Errors
    ///
    /// Those of [`File::try_value`].
    pub fn try_value_by<T: TryFrom<BString>>(
        &self,
        section_name: impl AsRef<str>,
        subsection_name: impl AsBStrOpt,
        value_name: impl AsRef<str>,
    ) -> Result<Option<T>, T::Error> {
        let value = self.string_by(section_name, subsection_name, value_name);
        value.map(T::try_from).transpose()
    }

    /// All values of a key in a type, one or more, in the file's order.
    ///
    /// # Errors
    ///
    /// There is no such section, subsection or value, or the type refuses one of them.
    pub fn values<T: TryFrom<BString>>(
        &self,
        key: impl AsKey,
    ) -> Result<Vec<T>, lookup::Error<T::Error>> {
        converted(self.raw_values(key)?)
    }

    /// As [`File::values`], by names.
    ///
    /// # Errors
    ///
    /// Those of [`File::values`].
    pub fn values_by<T: TryFrom<BString>>(
        &self,
        section_name: impl AsRef<str>,
        subsection_name: impl AsBStrOpt,
        value_name: impl AsRef<str>,
    ) -> Result<Vec<T>, lookup::Error<T::Error>> {
        converted(self.raw_values_by(section_name, subsection_name, value_name)?)
    }
}

/// The values in a type.
fn converted<T: TryFrom<BString>>(values: Vec<BString>) -> Result<Vec<T>, lookup::Error<T::Error>> {
    let values: Result<Vec<T>, T::Error> = values.into_iter().map(T::try_from).collect();
    values.map_err(lookup::Error::FailedConversion)
}

/// Booleans and integers.
impl File {
    /// The last value of a key as a boolean, if there is one: true for an entry without `=`.
    ///
    /// # Errors
    ///
    /// The value is no boolean.
    ///
    /// # Examples
    ///
    /// ```
    /// let file = gix_config::File::try_from("[core]\n\tbare = on\n\tfilemode\n")?;
    /// assert_eq!(file.boolean("core.bare")?, Some(true));
    /// assert_eq!(file.boolean("core.filemode")?, Some(true));
    /// assert_eq!(file.boolean("core.ignorecase")?, None);
    /// # Ok::<(), Box<dyn std::error::Error>>(())
    /// ```
    pub fn boolean(&self, key: impl AsKey) -> Result<Option<bool>, value::Error> {
        let key = match key.try_as_key() {
            Some(key) => key,
            None => return Ok(None),
        };
        let found = self.sys.boolean(&names_of(&key), None);
        typed(found, "not a boolean", || {
            self.string(key).unwrap_or_default()
        })
    }

    /// As [`File::boolean`], by names.
    ///
    /// # Errors
    ///
    /// The value is no boolean.
    pub fn boolean_by(
        &self,
        section_name: impl AsRef<str>,
        subsection_name: impl AsBStrOpt,
        value_name: impl AsRef<str>,
    ) -> Result<Option<bool>, value::Error> {
        self.boolean(KeyRef {
            section_name: section_name.as_ref(),
            subsection_name: subsection_name.as_bstr_opt(),
            value_name: value_name.as_ref(),
        })
    }

    /// The last value of a key as an integer, times its suffix, if there is one.
    ///
    /// # Errors
    ///
    /// The value is no integer of 64 bits.
    ///
    /// # Examples
    ///
    /// ```
    /// let file = gix_config::File::try_from("[core]\n\tbigFileThreshold = 2k\n")?;
    /// assert_eq!(file.integer("core.bigFileThreshold")?, Some(2048));
    /// # Ok::<(), Box<dyn std::error::Error>>(())
    /// ```
    pub fn integer(&self, key: impl AsKey) -> Result<Option<i64>, value::Error> {
        let key = match key.try_as_key() {
            Some(key) => key,
            None => return Ok(None),
        };
        let found = self.sys.integer(&names_of(&key), None);
        typed(found, "not an integer", || {
            self.string(key).unwrap_or_default()
        })
    }

    /// As [`File::integer`], by names.
    ///
    /// # Errors
    ///
    /// The value is no integer of 64 bits.
    pub fn integer_by(
        &self,
        section_name: impl AsRef<str>,
        subsection_name: impl AsBStrOpt,
        value_name: impl AsRef<str>,
    ) -> Result<Option<i64>, value::Error> {
        self.integer(KeyRef {
            section_name: section_name.as_ref(),
            subsection_name: subsection_name.as_bstr_opt(),
            value_name: value_name.as_ref(),
        })
    }
}

/// Several integers, and paths of some sections.
impl File {
    /// All values of a key as integers, each times its suffix, in the file's order, if there are some.
    ///
    /// # Errors
    ///
    /// One of them is no integer of 64 bits.
    ///
    /// # Examples
    ///
    /// ```
    /// let file = gix_config::File::try_from("[a]\n\tk = 1\n\tk = 2\n")?;
    /// assert_eq!(file.integers("a.k")?, Some(vec![1, 2]));
    /// # Ok::<(), Box<dyn std::error::Error>>(())
    /// ```
    pub fn integers(&self, key: impl AsKey) -> Result<Option<Vec<i64>>, value::Error> {
        integers_of(self.strings(key))
    }

    /// As [`File::integers`], by names.
    ///
    /// # Errors
    ///
    /// Those of [`File::integers`].
    pub fn integers_by(
        &self,
        section_name: impl AsRef<str>,
        subsection_name: impl AsBStrOpt,
        value_name: impl AsRef<str>,
    ) -> Result<Option<Vec<i64>>, value::Error> {
        integers_of(self.strings_by(section_name, subsection_name, value_name))
    }

    /// As [`File::integers`], in the sections whose metadata the filter keeps.
    ///
    /// # Errors
    ///
    /// Those of [`File::integers`].
    pub fn integers_filter(
        &self,
        key: impl AsKey,
        filter: impl FnMut(&Metadata) -> bool,
    ) -> Result<Option<Vec<i64>>, value::Error> {
        integers_of(self.strings_filter(key, filter))
    }

    /// As [`File::integers_filter`], by names.
    ///
    /// # Errors
    ///
    /// Those of [`File::integers`].
    pub fn integers_filter_by(
        &self,
        section_name: impl AsRef<str>,
        subsection_name: impl AsBStrOpt,
        value_name: impl AsRef<str>,
        filter: impl FnMut(&Metadata) -> bool,
    ) -> Result<Option<Vec<i64>>, value::Error> {
        integers_of(self.strings_filter_by(section_name, subsection_name, value_name, filter))
    }

    /// As [`File::path`], in the sections whose metadata the filter keeps.
    #[must_use]
    pub fn path_filter(
        &self,
        key: impl AsKey,
        filter: impl FnMut(&Metadata) -> bool,
    ) -> Option<Path> {
        self.string_filter(key, filter).map(Path::from)
    }

    /// As [`File::path_filter`], by names.
    #[must_use]
    pub fn path_filter_by(
        &self,
        section_name: impl AsRef<str>,
        subsection_name: impl AsBStrOpt,
        value_name: impl AsRef<str>,
        filter: impl FnMut(&Metadata) -> bool,
    ) -> Option<Path> {
        self.string_filter_by(section_name, subsection_name, value_name, filter)
            .map(Path::from)
    }
}

/// The values as integers.
fn integers_of(values: Option<Vec<BString>>) -> Result<Option<Vec<i64>>, value::Error> {
    let values = match values {
        Some(values) => values,
        None => return Ok(None),
    };
    let integers = values.iter().map(|it| value::integer_of(it.as_bstr()));
    integers.collect::<Result<_, _>>().map(Some)
}
