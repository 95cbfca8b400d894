//! What can be given as bytes.
use bstr::{BStr, BString, ByteSlice};

/// What can be given as bytes: a value, a comment or a name.
pub trait AsBStr {
    /// The bytes.
    fn as_bstr(&self) -> &BStr;
}

macro_rules! as_bytes {
    ($($kind:ty),*) => {$(
        impl AsBStr for $kind {
            fn as_bstr(&self) -> &BStr {
                let bytes: &[u8] = self.as_ref();
                ByteSlice::as_bstr(bytes)
            }
        }
    )*};
}

as_bytes!(str, String, [u8], Vec<u8>, BStr, BString);

impl<const N: usize> AsBStr for [u8; N] {
    fn as_bstr(&self) -> &BStr {
        ByteSlice::as_bstr(self.as_slice())
    }
}

impl<T: AsBStr + ?Sized> AsBStr for &T {
    fn as_bstr(&self) -> &BStr {
        (**self).as_bstr()
    }
}

/// What can be given as bytes that there may be none of: the name of a subsection, or a value.
pub trait AsBStrOpt {
    /// The bytes, if there are some.
    fn as_bstr_opt(&self) -> Option<&BStr>;
}

// (the one option of all, so that `None` needs no type)
impl AsBStrOpt for Option<&BStr> {
    fn as_bstr_opt(&self) -> Option<&BStr> {
        *self
    }
}

impl AsBStrOpt for String {
    fn as_bstr_opt(&self) -> Option<&BStr> {
        Some(self.as_bstr())
    }
}

impl AsBStrOpt for BString {
    fn as_bstr_opt(&self) -> Option<&BStr> {
        Some(AsBStr::as_bstr(self))
    }
}

impl<T: AsBStr + ?Sized> AsBStrOpt for &T {
    fn as_bstr_opt(&self) -> Option<&BStr> {
        Some((**self).as_bstr())
    }
}

/// What can be given as bytes of a header that is made, that there may be none of.
pub trait IntoBStringOpt {
    /// The bytes, if there are some.
    fn into_bstring_opt(self) -> Option<BString>;
}

// (the one option of all, so that `None` needs no type)
impl IntoBStringOpt for Option<BString> {
    fn into_bstring_opt(self) -> Option<BString> {
        self
    }
}

macro_rules! into_bytes {
    ($($kind:ty),*) => {$(
        impl IntoBStringOpt for $kind {
            fn into_bstring_opt(self) -> Option<BString> {
                Some(self.into())
            }
        }
    )*};
}

into_bytes!(BString, String, Vec<u8>);

impl<const N: usize> IntoBStringOpt for [u8; N] {
    fn into_bstring_opt(self) -> Option<BString> {
        Some(self.to_vec().into())
    }
}

impl<T: AsBStr + ?Sized> IntoBStringOpt for &T {
    fn into_bstring_opt(self) -> Option<BString> {
        Some(self.as_bstr().to_owned())
    }
}
