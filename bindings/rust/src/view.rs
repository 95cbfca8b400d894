//! The sections of a file as they are seen until its next edit.
use std::cmp::Ordering;
use std::fmt;
use std::io;
use std::ops::Deref;

use bstr::{BStr, BString, ByteSlice};

use crate::ids::SectionId;
use crate::meta::Metadata;
use crate::section::Section;
use crate::sys::{self, EntryRow, Lazy, Part, SectionRow};

/// All sections and entries of a file, as one call tells them.
pub(crate) struct Rows {
    view: sys::View,
    metas: Vec<Metadata>,
    /// The places of the sections, by their names.
    by_names: Lazy<Vec<usize>>,
    /// The same, by their numbers.
    by_numbers: Lazy<Vec<usize>>,
}

/// The sections of a file, as they are until it is edited.
#[derive(Clone, Copy)]
pub(crate) struct Seen<'a> {
    file: &'a sys::File,
    rows: &'a Rows,
}

/// A name without ASCII case.
fn folded(name: &[u8]) -> impl Iterator<Item = u8> + '_ {
    name.iter().map(u8::to_ascii_lowercase)
}

/// The order of sections by their names, without ASCII case.
fn by_name(one: &[u8], other: &[u8]) -> Ordering {
    folded(one).cmp(folded(other))
}

impl Rows {
    pub(crate) fn of(view: sys::View) -> Self {
        let metas = view.origins().iter().map(|it| {
            let path = it.has_path.then(|| view.part(it.path));
            Metadata::of(path, it.source, it.level, it.trust)
        });
        let metas = metas.collect();
        Rows {
            view,
            metas,
            by_names: Lazy::default(),
            by_numbers: Lazy::default(),
        }
    }

    fn part(&self, part: Part) -> &BStr {
        self.view.part(part).as_bstr()
    }

    /// The number of the section at a place.
    fn id(&self, place: usize) -> SectionId {
        SectionId(self.view.sections()[place].number)
    }
}

impl<'a> Seen<'a> {
    pub(crate) fn of(file: &'a sys::File, rows: &'a Rows) -> Self {
        Seen { file, rows }
    }

    pub(crate) fn num_entries(self) -> usize {
        self.rows.view.entries().len()
    }

    /// The section at a place, where there is one.
    pub(crate) fn section(self, place: usize) -> SectionRef<'a> {
        let Seen { file, rows } = self;
        let row = &rows.view.sections()[place];
        let entries = &rows.view.entries()[row.entries_at..][..row.entries_len];
        let body = BodyRef {
            file,
            rows,
            place,
            entries,
        };
        SectionRef { row, body }
    }

    /// The places of all sections.
    fn all(self) -> std::ops::Range<usize> {
        0..self.rows.view.sections().len()
    }

    /// All sections, in order.
    pub(crate) fn sections(
        self,
    ) -> impl DoubleEndedIterator<Item = SectionRef<'a>> + ExactSizeIterator {
        self.all().map(move |place| self.section(place))
    }

    /// The place of the section that has the number, if one has it.
    pub(crate) fn place(self, id: SectionId) -> Option<usize> {
        let sorted = self.rows.by_numbers.get(|| {
            let mut places: Vec<_> = self.all().collect();
            places.sort_unstable_by_key(|place| self.rows.id(*place));
            places
        });
        let found = sorted.binary_search_by_key(&id, |place| self.rows.id(*place));
        found.ok().map(|at| sorted[at])
    }

    /// The places of the sections of which this is the order in which they are sorted: those of one name, or of one name and subsection.
    fn places(self, order: impl Fn(&HeaderRef<'_>) -> Ordering) -> &'a [usize] {
        let sorted = self.rows.by_names.get(|| {
            let mut places: Vec<_> = self.all().collect();
            places.sort_by_cached_key(|place| {
                let header = self.section(*place).header();
                (header.name.to_ascii_lowercase(), header.subsection_name)
            });
            places
        });
        let order = |place: &usize| order(&self.section(*place).header());
        let begin = sorted.partition_point(|it| order(it) == Ordering::Less);
        let end = sorted.partition_point(|it| order(it) != Ordering::Greater);
        &sorted[begin..end]
    }

    /// The sections of a name, in order.
    pub(crate) fn of_name(self, name: &str) -> Vec<SectionRef<'a>> {
        let mut places = self.places(|it| by_name(it.name, name.as_bytes())).to_vec();
        places.sort_unstable();
        places.into_iter().map(|it| self.section(it)).collect()
    }

    /// The sections of a name and a subsection, or none, in order.
    pub(crate) fn of_names(
        self,
        name: &str,
        subsection_name: Option<&BStr>,
    ) -> impl DoubleEndedIterator<Item = SectionRef<'a>> + ExactSizeIterator {
        let places = self.places(|it| {
            let first = by_name(it.name, name.as_bytes());
            first.then(it.subsection_name.cmp(&subsection_name))
        });
        places.iter().map(move |place| self.section(*place))
    }
}

/// A section of a file, as it is until the file is edited: its header, where it comes from, and its entries, those of a [`BodyRef`]. Equal ones
/// have the same header, entries and metadata.
#[derive(Clone, Copy)]
pub struct SectionRef<'a> {
    row: &'a SectionRow,
    body: BodyRef<'a>,
}

impl<'a> SectionRef<'a> {
    /// The section's header.
    #[must_use]
    pub fn header(&self) -> HeaderRef<'a> {
        let (rows, row) = (self.body.rows, self.row);
        HeaderRef {
            name: rows.part(row.name),
            subsection_name: row.has_subsection.then(|| rows.part(row.subsection)),
            text: HeaderText::Of(self.body),
        }
    }

    /// The section's entries.
    #[must_use]
    pub fn body(&self) -> BodyRef<'a> {
        self.body
    }

    /// Where the section comes from. Sections that stand one after the other and come from the same place have one between them.
    #[must_use]
    pub fn meta(&self) -> &'a Metadata {
        &self.body.rows.metas[self.row.origin]
    }

    /// The section's number in its file.
    #[must_use]
    pub fn id(&self) -> SectionId {
        SectionId(self.row.number)
    }

    /// The section as it is written: its header, and all that stands up to the next one.
    ///
    /// # Examples
    ///
    /// ```
    /// let file = gix_config::File::try_from("[a]\n\tk = 1 ; one\n[b]\n")?;
    /// assert_eq!(file.section("a", None)?.to_bstring(), "[a]\n\tk = 1 ; one\n");
    /// # Ok::<(), Box<dyn std::error::Error>>(())
    /// ```
    #[must_use]
    pub fn to_bstring(&self) -> BString {
        self.body.section_text().copy()
    }

    /// Writes the section as [`SectionRef::to_bstring`] has it.
    ///
    /// # Errors
    ///
    /// Those of the writer.
    pub fn write_to(&self, out: &mut dyn io::Write) -> io::Result<()> {
        out.write_all(self.body.section_text().bytes())
    }

    /// Its place among the sections of the file, from 0.
    pub(crate) fn place(&self) -> usize {
        self.body.place
    }

    /// A copy that stays when the file is edited.
    #[must_use]
    pub fn to_owned(&self) -> Section {
        let header = self.header();
        let entries = self.body.entries();
        Section {
            header: header.to_bstring(),
            name: header.name.into(),
            subsection_name: header.subsection_name.map(BString::from),
            meta: self.meta().clone(),
            entries: entries
                .map(|(name, value)| (name.into(), value.map(BString::from)))
                .collect(),
        }
    }
}

impl<'a> Deref for SectionRef<'a> {
    type Target = BodyRef<'a>;

    fn deref(&self) -> &BodyRef<'a> {
        &self.body
    }
}

impl PartialEq for SectionRef<'_> {
    fn eq(&self, other: &Self) -> bool {
        (self.header(), self.meta(), self.body) == (other.header(), other.meta(), other.body)
    }
}

impl Eq for SectionRef<'_> {}

impl fmt::Debug for SectionRef<'_> {
    fn fmt(&self, f: &mut fmt::Formatter<'_>) -> fmt::Result {
        f.debug_struct("SectionRef")
            .field("header", &self.header())
            .field("meta", self.meta())
            .field("body", &self.body)
            .finish()
    }
}

/// Where a header is written.
#[derive(Clone, Copy)]
pub(crate) enum HeaderText<'a> {
    /// Before these entries.
    Of(BodyRef<'a>),
    /// It is this text.
    Alone(&'a BStr),
}

/// The header of a section. Equal ones have the same names, as they are spelled.
#[derive(Clone, Copy)]
pub struct HeaderRef<'a> {
    pub(crate) name: &'a BStr,
    pub(crate) subsection_name: Option<&'a BStr>,
    pub(crate) text: HeaderText<'a>,
}

impl PartialEq for HeaderRef<'_> {
    fn eq(&self, other: &Self) -> bool {
        (self.name, self.subsection_name) == (other.name, other.subsection_name)
    }
}

impl Eq for HeaderRef<'_> {}

impl fmt::Debug for HeaderRef<'_> {
    fn fmt(&self, f: &mut fmt::Formatter<'_>) -> fmt::Result {
        f.debug_struct("HeaderRef")
            .field("name", &self.name)
            .field("subsection_name", &self.subsection_name)
            .finish()
    }
}

impl<'a> HeaderRef<'a> {
    /// The section's name, as it is spelled.
    #[must_use]
    pub fn name(&self) -> &'a BStr {
        self.name
    }

    /// The subsection's name, if there is one.
    #[must_use]
    pub fn subsection_name(&self) -> Option<&'a BStr> {
        self.subsection_name
    }

    /// The header as it is written, with its brackets.
    #[must_use]
    pub fn to_bstring(&self) -> BString {
        match self.text {
            HeaderText::Of(body) => {
                let text = body.section_text();
                text.bytes()[..header_len(text.bytes())].into()
            }
            HeaderText::Alone(text) => text.into(),
        }
    }

    /// Whether the subsection's name stands behind a dot, and not in quotes.
    #[must_use]
    pub fn is_legacy(&self) -> bool {
        self.subsection_name.is_some() && !self.to_bstring().contains(&b'"')
    }
}

/// The entries of a section, as they are until the file is edited. Looked through they are pairs of a name, as it is spelled, and what the
/// value means, which is empty for an entry without `=`; [`BodyRef::entries`] borrows both.
#[derive(Clone, Copy)]
pub struct BodyRef<'a> {
    file: &'a sys::File,
    rows: &'a Rows,
    place: usize,
    entries: &'a [EntryRow],
}

/// Lookups in what has entries as `pairs`.
macro_rules! lookups {
    () => {
        /// What the last entry of the name means; `None` if there is none, or if it has no `=`.
        #[must_use]
        pub fn value(&self, value_name: impl AsRef<str>) -> Option<BString> {
            self.value_implicit(value_name.as_ref()).flatten()
        }

        /// As `value`, but `Some(None)` for an entry without `=`.
        #[must_use]
        pub fn value_implicit(&self, value_name: &str) -> Option<Option<BString>> {
            let last = self.pairs().rfind(|it| is_named(it.0, value_name))?;
            Some(last.1.map(BString::from))
        }

        /// What all entries of the name mean, in order; one without `=` is empty.
        #[must_use]
        pub fn values(&self, value_name: &str) -> Vec<BString> {
            let named = self.pairs().filter(|it| is_named(it.0, value_name));
            named.map(|it| it.1.unwrap_or_default().into()).collect()
        }

        /// Whether there is an entry of the name.
        #[must_use]
        pub fn contains_value_name(&self, value_name: &str) -> bool {
            self.pairs().any(|it| is_named(it.0, value_name))
        }

        /// How many entries there are.
        #[must_use]
        pub fn num_values(&self) -> usize {
            self.entries.len()
        }
    };
}

pub(crate) use lookups;

/// Whether an entry has the name, without ASCII case.
pub(crate) fn is_named(name: &BStr, value_name: &str) -> bool {
    name.eq_ignore_ascii_case(value_name.as_bytes())
}

/// How long the header is that a section's text begins with.
fn header_len(text: &[u8]) -> usize {
    let mut is_quoted = false;
    let mut bytes = text.iter().enumerate();
    while let Some((at, byte)) = bytes.next() {
        match byte {
            b'"' => is_quoted = !is_quoted,
            b'\\' if is_quoted => drop(bytes.next()),
            b']' if !is_quoted => return at + 1,
            _ => {}
        }
    }
    text.len()
}

impl<'a> BodyRef<'a> {
    fn pairs(&self) -> Entries<'a> {
        self.entries()
    }

    /// The text of the section, with its header.
    fn section_text(&self) -> sys::Bytes {
        self.file.section_text(self.place)
    }

    /// Whether nothing follows the header, not even a line ending.
    #[must_use]
    pub fn is_void(&self) -> bool {
        let text = self.section_text();
        header_len(text.bytes()) == text.bytes().len()
    }

    lookups!();

    /// The entries, as pairs of a name, as it is spelled, and what the value means; `None` for an entry without `=`.
    #[must_use]
    pub fn entries(&self) -> Entries<'a> {
        let left = self.entries.iter();
        let rows = self.rows;
        Entries { rows, left }
    }

    /// The names of the entries, as they are spelled, in order, each as often as it occurs.
    pub fn value_names(&self) -> impl DoubleEndedIterator<Item = String> + ExactSizeIterator + 'a {
        self.entries().map(|(name, _)| name.to_string())
    }
}

impl<'a> IntoIterator for BodyRef<'a> {
    type Item = (String, BString);
    type IntoIter = BodyRefIter<'a>;

    fn into_iter(self) -> BodyRefIter<'a> {
        BodyRefIter(self.entries())
    }
}

impl PartialEq for BodyRef<'_> {
    fn eq(&self, other: &Self) -> bool {
        self.entries().eq(other.entries())
    }
}

impl Eq for BodyRef<'_> {}

impl fmt::Debug for BodyRef<'_> {
    fn fmt(&self, f: &mut fmt::Formatter<'_>) -> fmt::Result {
        f.debug_list().entries(self.entries()).finish()
    }
}

/// The entries of a section, one after the other.
#[derive(Clone)]
pub struct Entries<'a> {
    rows: &'a Rows,
    left: std::slice::Iter<'a, EntryRow>,
}

impl<'a> Entries<'a> {
    fn entry(&self, row: &EntryRow) -> (&'a BStr, Option<&'a BStr>) {
        let value = row.has_value.then(|| self.rows.part(row.value));
        (self.rows.part(row.name), value)
    }
}

impl<'a> Iterator for Entries<'a> {
    type Item = (&'a BStr, Option<&'a BStr>);

    fn next(&mut self) -> Option<Self::Item> {
        let row = self.left.next()?;
        Some(self.entry(row))
    }

    fn size_hint(&self) -> (usize, Option<usize>) {
        self.left.size_hint()
    }
}

impl DoubleEndedIterator for Entries<'_> {
    fn next_back(&mut self) -> Option<Self::Item> {
        let row = self.left.next_back()?;
        Some(self.entry(row))
    }
}

impl ExactSizeIterator for Entries<'_> {}

/// The entries of a section, one after the other, with names and values of their own.
#[derive(Clone)]
pub struct BodyRefIter<'a>(Entries<'a>);

/// An entry with a name and a value of its own.
fn owned((name, value): (&BStr, Option<&BStr>)) -> (String, BString) {
    (name.to_string(), value.unwrap_or_default().into())
}

impl Iterator for BodyRefIter<'_> {
    type Item = (String, BString);

    fn next(&mut self) -> Option<Self::Item> {
        self.0.next().map(owned)
    }

    fn size_hint(&self) -> (usize, Option<usize>) {
        self.0.size_hint()
    }
}

impl DoubleEndedIterator for BodyRefIter<'_> {
    fn next_back(&mut self) -> Option<Self::Item> {
        self.0.next_back().map(owned)
    }
}

impl ExactSizeIterator for BodyRefIter<'_> {}
