//! Numbers of sections, which stay while sections are added or removed around them.

/// The number of a section in its file, which stays for as long as the section is there, and which no other section of the file gets. The
/// default is one that no section has.
#[derive(Clone, Copy, Debug, PartialEq, Eq, PartialOrd, Ord, Hash)]
pub struct SectionId(pub(crate) usize);

impl Default for SectionId {
    fn default() -> Self {
        SectionId(usize::MAX)
    }
}
