//! Why a lookup finds nothing.

/// Why there is no value in a type.
#[derive(Clone, Copy, Debug, PartialEq, Eq, thiserror::Error)]
pub enum Error<E> {
    /// There is no value.
    #[error(transparent)]
    ValueMissing(#[from] existing::Error),
    /// The type refuses the value.
    #[error(transparent)]
    FailedConversion(E),
}

/// Of values that have to be there.
pub mod existing {
    use crate::parse::section::value_name;
    use crate::sys::{self, number};

    /// What is missing.
    #[derive(Clone, Copy, Debug, PartialEq, Eq, thiserror::Error)]
    #[allow(missing_docs)]
    pub enum Error {
        #[error("The requested section does not exist")]
        SectionMissing,
        #[error("The requested subsection does not exist")]
        SubSectionMissing,
        #[error("The key does not exist in the requested section")]
        KeyMissing,
        #[error(transparent)]
        ValueName(#[from] value_name::Error),
    }

    impl Error {
        /// The number of the error in docs/refusals.md.
        #[must_use]
        pub fn number(&self) -> u32 {
            match self {
                Error::SectionMissing => number::SECTION_MISSING,
                Error::SubSectionMissing => number::SUBSECTION_MISSING,
                Error::KeyMissing => number::KEY_MISSING,
                Error::ValueName(error) => error.number(),
            }
        }

        pub(crate) fn of(number: u32) -> Self {
            match number {
                number::SECTION_MISSING => Error::SectionMissing,
                number::SUBSECTION_MISSING => Error::SubSectionMissing,
                number::KEY_MISSING => Error::KeyMissing,
                number => sys::unforeseen(number),
            }
        }
    }
}
