//! Keys: the three names of a value.
use bstr::{BStr, BString, ByteSlice};

/// The names of a value: its section's, its subsection's if there is one, and its own.
#[derive(Clone, Copy, Debug, PartialEq, Eq, PartialOrd, Ord, Hash)]
pub struct KeyRef<'a> {
    /// The section's name, such as `remote`.
    pub section_name: &'a str,
    /// The subsection's name, such as `origin`.
    pub subsection_name: Option<&'a BStr>,
    /// The value's name, such as `url`.
    pub value_name: &'a str,
}

impl<'a> KeyRef<'a> {
    /// The key that a text writes, such as `remote.origin.url`: its subsection is all between the first dot and the last. `None` without a
    /// dot, or if the section or the value is not UTF-8.
    pub fn parse_unvalidated(input: &'a BStr) -> Option<Self> {
        let first = input.find_byte(b'.')?;
        let last = input.rfind_byte(b'.')?;
        let subsection_name = (first != last).then(|| input[first + 1..last].as_bstr());
        Some(KeyRef {
            section_name: input[..first].to_str().ok()?,
            subsection_name,
            value_name: input[last + 1..].to_str().ok()?,
        })
    }
}

/// What can be taken as a key.
pub trait AsKey {
    /// The key.
    ///
    /// # Panics
    ///
    /// If it is none.
    fn as_key(&self) -> KeyRef<'_>;

    /// The key, or `None` if it is none.
    fn try_as_key(&self) -> Option<KeyRef<'_>>;
}

impl AsKey for KeyRef<'_> {
    fn as_key(&self) -> KeyRef<'_> {
        *self
    }

    fn try_as_key(&self) -> Option<KeyRef<'_>> {
        Some(*self)
    }
}

macro_rules! text_as_key {
    ($($kind:ty),*) => {$(
        impl AsKey for $kind {
            fn as_key(&self) -> KeyRef<'_> {
                self.try_as_key().expect("a key has a dot, and names that are UTF-8")
            }

            fn try_as_key(&self) -> Option<KeyRef<'_>> {
                let text: &[u8] = self.as_ref();
                KeyRef::parse_unvalidated(text.as_bstr())
            }
        }
    )*};
}

text_as_key!(str, String, BStr, BString);

impl<T: AsKey + ?Sized> AsKey for &T {
    fn as_key(&self) -> KeyRef<'_> {
        (**self).as_key()
    }

    fn try_as_key(&self) -> Option<KeyRef<'_>> {
        (**self).try_as_key()
    }
}
