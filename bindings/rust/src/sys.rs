//! The library's calls, as safe functions: no other file has `unsafe`.
//!
//! Each returns the number of an error that its caller is to tell. Out of memory ends the program, as in Rust's own collections, and a number
//! that a call doesn't answer is a panic that names it.
#![allow(unsafe_code)]

use std::cell::{Cell, UnsafeCell};
use std::marker::PhantomData;
use std::mem::MaybeUninit;

use bstr::BString;

use crate::includes::Found;
use crate::meta;
use crate::view::{Rows, Seen};

// (as tools/c_header writes it)
#[rustfmt::skip]
mod raw;

use raw::Origin;

pub(crate) use raw::{
    Assigned, EntryRow, Filter, Folders, Includes, Key, Layout, Line, Load, Metadata, OriginRow,
    Part, Place, Places, Repository, Section, SectionRow, Text, NOTHING_THERE, NOT_TOLD, NOT_UTF8,
    SOURCES_ALL, VARIABLE_NOT_TOLD,
};

/// The numbers of errors.
pub(crate) mod number {
    pub(crate) use super::raw::{
        BAD_VALUE, FILE_NOT_READ, ILLFORMED_VARIABLE, INCLUDE_DEPTH_EXCEEDED, INCLUDE_NOT_OPENED,
        INCLUDE_NOT_READ, INPUT_TOO_LARGE, INVALID_CONFIG_COUNT, INVALID_KEY_ID, INVALID_KEY_VALUE,
        INVALID_SECTION_NAME, INVALID_SUBSECTION, INVALID_VALUE_ID, INVALID_VALUE_NAME,
        KEY_MISSING, MISSING_CONFIG_PATH, MISSING_FOLDER, MISSING_GIT_DIR, PATH_NOT_UTF8, REALPATH,
        SECTION_MISSING, SPAN_TOO_LARGE, SUBSECTION_MISSING, UNEXPECTED_TOKEN, USER_NOT_UTF8,
    };
}

/// The number of an error.
pub(crate) type Number = u32;

/// What the answer of a call says.
fn done(number: Number) -> Result<(), Number> {
    match number {
        raw::DONE => Ok(()),
        raw::OUT_OF_MEMORY => std::alloc::handle_alloc_error(std::alloc::Layout::new::<u8>()),
        number => Err(number),
    }
}

/// Ends the program by a number that the call doesn't answer.
pub(crate) fn unforeseen(number: Number) -> ! {
    panic!("libgix_config answered {number}: {}", words(number))
}

/// Of a call that is only refused for want of memory.
fn surely(number: Number) {
    done(number).unwrap_or_else(|number| unforeseen(number));
}

/// What a number says.
pub(crate) fn words(number: Number) -> &'static str {
    let mut text = Text::of(b"");
    // SAFETY: the text is written alone, and what it then points to stays for good.
    unsafe {
        raw::gix_config_refusal_text(number, &mut text);
        std::str::from_utf8(text.bytes()).unwrap_or_default()
    }
}

impl<'a> Text<'a> {
    pub(crate) fn of(bytes: &'a [u8]) -> Self {
        Text {
            at: bytes.as_ptr(),
            len: bytes.len(),
            lent: PhantomData,
        }
    }

    /// The bytes.
    ///
    /// # Safety
    ///
    /// They lie there, for as long as `'a` says, or the length is 0.
    unsafe fn bytes(&self) -> &'a [u8] {
        if self.len == 0 {
            return &[];
        }
        std::slice::from_raw_parts(self.at, self.len)
    }
}

/// Bytes that a call returns, which are freed with this.
pub(crate) struct Bytes(raw::Bytes);

impl Bytes {
    fn empty() -> Self {
        Bytes(raw::Bytes {
            at: std::ptr::null(),
            len: 0,
            owner: std::ptr::null_mut(),
        })
    }

    pub(crate) fn bytes(&self) -> &[u8] {
        let text = Text {
            at: self.0.at,
            len: self.0.len,
            lent: PhantomData,
        };
        // SAFETY: the block owns these bytes, or has none.
        unsafe { text.bytes() }
    }

    /// A copy of the bytes.
    pub(crate) fn copy(&self) -> BString {
        self.bytes().into()
    }
}

impl Drop for Bytes {
    fn drop(&mut self) {
        // SAFETY: the block is empty, or was filled by a call.
        unsafe { raw::gix_config_bytes_free(&mut self.0) }
    }
}

/// What a call lists, which is freed with this.
struct List(raw::List);

impl List {
    fn empty() -> Self {
        List(raw::List {
            at: std::ptr::null_mut(),
        })
    }

    /// The handle, which a call has for itself, also one that only reads.
    fn at(&mut self) -> *mut raw::List {
        &mut self.0
    }

    fn len(&mut self) -> usize {
        // SAFETY: the handle is empty, or was filled by a call.
        unsafe { raw::gix_config_list_len(self.at()) }
    }

    /// What is made of a thing of the list.
    ///
    /// # Safety
    ///
    /// A thing may be all zeros, and the call fills it. It lies in the list, so that what is made of it is a copy.
    unsafe fn one<T, Made>(
        &mut self,
        index: usize,
        call: unsafe extern "C" fn(*const raw::List, usize, *mut T) -> u32,
        make: impl Fn(&T) -> Made,
    ) -> Made {
        let mut thing = MaybeUninit::<T>::zeroed();
        surely(call(self.at(), index, thing.as_mut_ptr()));
        make(&thing.assume_init())
    }

    /// Copies of the texts.
    fn texts(mut self) -> Vec<BString> {
        let text = |list: &mut List, index| {
            // SAFETY: a text may be all zeros, and lies in the list.
            unsafe { list.one(index, raw::gix_config_list_at, |text| text.bytes().into()) }
        };
        (0..self.len())
            .map(|index| text(&mut self, index))
            .collect()
    }
}

impl Drop for List {
    fn drop(&mut self) {
        // SAFETY: the handle is empty, or was filled by a call.
        unsafe { raw::gix_config_list_close(&mut self.0) }
    }
}

/// The sections and entries of a file as arrays, which are freed with this.
pub(crate) struct View(raw::View);

impl View {
    /// An array of the view.
    ///
    /// # Safety
    ///
    /// It is as long as is said, or that is 0.
    unsafe fn array<T>(&self, at: *const T, len: usize) -> &[T] {
        if len == 0 {
            return &[];
        }
        std::slice::from_raw_parts(at, len)
    }

    pub(crate) fn sections(&self) -> &[SectionRow] {
        // SAFETY: a call filled the view.
        unsafe { self.array(self.0.sections, self.0.sections_len) }
    }

    pub(crate) fn entries(&self) -> &[EntryRow] {
        // SAFETY: a call filled the view.
        unsafe { self.array(self.0.entries, self.0.entries_len) }
    }

    pub(crate) fn origins(&self) -> &[OriginRow] {
        // SAFETY: a call filled the view.
        unsafe { self.array(self.0.origins, self.0.origins_len) }
    }

    /// The bytes of a part.
    pub(crate) fn part(&self, part: Part) -> &[u8] {
        // SAFETY: a call filled the view.
        let text = unsafe { self.array(self.0.text, self.0.text_len) };
        &text[part.at..][..part.len]
    }
}

impl Drop for View {
    fn drop(&mut self) {
        // SAFETY: a call filled the view.
        unsafe { raw::gix_config_view_free(&mut self.0) }
    }
}

/// A value that is made when it is first asked for.
pub(crate) struct Lazy<T>(UnsafeCell<Option<Box<T>>>);

impl<T> Default for Lazy<T> {
    fn default() -> Self {
        Lazy(UnsafeCell::new(None))
    }
}

impl<T> Lazy<T> {
    pub(crate) fn get(&self, make: impl FnOnce() -> T) -> &T {
        // SAFETY: what is borrowed is never changed: it is put where nothing was, and taken away by `clear` alone, for which nothing is
        // borrowed. No other thread has it, as it isn't `Sync`.
        unsafe {
            if (*self.0.get()).is_none() {
                let made = Box::new(make());
                // (which may have asked for it, too)
                if (*self.0.get()).is_none() {
                    *self.0.get() = Some(made);
                }
            }
            (*self.0.get()).as_deref().expect("it was just made")
        }
    }

    fn clear(&mut self) {
        *self.0.get_mut() = None;
    }
}

/// A text that is formatted; else the number, and where the text is refused.
pub(crate) fn normalize(text: &[u8], layout: &Layout) -> Result<Bytes, (Number, Place)> {
    let (mut formatted, mut place) = (Bytes::empty(), Place::default());
    let (at, len) = (text.as_ptr(), text.len());
    // SAFETY: the text is as long as is said.
    let answer =
        unsafe { raw::gix_config_normalize(at, len, layout, &mut formatted.0, &mut place) };
    match done(answer) {
        Ok(()) => Ok(formatted),
        Err(number @ (number::UNEXPECTED_TOKEN | number::INPUT_TOO_LARGE)) => Err((number, place)),
        Err(number) => unforeseen(number),
    }
}

/// What a text means as a boolean.
pub(crate) fn boolean_of(text: &[u8]) -> Result<bool, Number> {
    let mut value = false;
    // SAFETY: the text is as long as is said.
    done(unsafe { raw::gix_config_boolean_parse(text.as_ptr(), text.len(), &mut value) })?;
    Ok(value)
}

/// What a text means as an integer, times its suffix.
pub(crate) fn integer_of(text: &[u8]) -> Result<i64, Number> {
    let mut value = 0;
    // SAFETY: the text is as long as is said.
    done(unsafe { raw::gix_config_integer_parse(text.as_ptr(), text.len(), &mut value) })?;
    Ok(value)
}

/// What is told of files and of variables, which is freed with this.
pub(crate) struct Told(raw::Told);

impl Told {
    /// Nothing is told as yet.
    pub(crate) fn new() -> Self {
        let mut told = Told(raw::Told {
            at: std::ptr::null_mut(),
        });
        // SAFETY: the handle is a new one.
        surely(unsafe { raw::gix_config_told_new(&mut told.0) });
        told
    }

    /// The handle, which a call has for itself, also one that only reads.
    fn at(&mut self) -> *mut raw::Told {
        &mut self.0
    }

    /// Tells what is at a path.
    pub(crate) fn tell(&mut self, path: &[u8], found: &Found) -> Result<(), Number> {
        let (told, at, len) = (&mut self.0, path.as_ptr(), path.len());
        // SAFETY: the handle has what is told, and path and text are as long as is said.
        done(unsafe {
            match found {
                Found::Missing => raw::gix_config_told_missing(told, at, len),
                Found::Text(text) => {
                    raw::gix_config_told_text(told, at, len, text.as_ptr(), text.len())
                }
                Found::Unopened(_) => raw::gix_config_told_fault(told, at, len, false),
                Found::Unread(_) => raw::gix_config_told_fault(told, at, len, true),
            }
        })
    }

    /// Tells what a variable is set to; that it isn't set for `None`.
    pub(crate) fn tell_variable(
        &mut self,
        name: &[u8],
        value: Option<&[u8]>,
    ) -> Result<(), Number> {
        let (told, at, len) = (&mut self.0, name.as_ptr(), name.len());
        // SAFETY: the handle has what is told, and name and value are as long as is said.
        done(unsafe {
            match value {
                Some(value) => {
                    raw::gix_config_told_variable(told, at, len, value.as_ptr(), value.len())
                }
                None => raw::gix_config_told_no_variable(told, at, len),
            }
        })
    }

    /// Where the text that was told of a path is refused, if it is.
    pub(crate) fn place(&mut self, path: &[u8]) -> Option<(Number, Place)> {
        let mut place = Place::default();
        let (at, len) = (path.as_ptr(), path.len());
        // SAFETY: the handle has what is told, and the path is as long as is said.
        let answer = unsafe { raw::gix_config_told_place(self.at(), at, len, &mut place) };
        match done(answer) {
            Err(number @ (number::UNEXPECTED_TOKEN | number::INPUT_TOO_LARGE)) => {
                Some((number, place))
            }
            _ => None,
        }
    }
}

impl Drop for Told {
    fn drop(&mut self) {
        // SAFETY: the handle is empty, or was filled by a call.
        unsafe { raw::gix_config_told_close(&mut self.0) }
    }
}

/// What is loaded, of what was told.
#[derive(Clone, Copy)]
pub(crate) enum Wanted<'a> {
    /// A file, with what it includes.
    File(&'a Load<'a>),
    /// The configuration of the machine and of the user.
    Globals(&'a Places<'a>),
    /// The entries that variables set.
    Variables(&'a Includes<'a>),
    /// The configuration of a repository.
    Repository(&'a Repository<'a>),
    /// What the sections of the file itself include.
    Included(&'a Includes<'a>),
}

/// A file, which is freed with this. It stays on its thread.
pub(crate) struct File {
    // (a call has the handle for itself, also one that only reads)
    handle: UnsafeCell<raw::File>,
    /// Its sections, until it is edited.
    rows: Lazy<Rows>,
    /// Where it comes from, until it is edited.
    meta: Lazy<meta::Metadata>,
    /// How many sections it has, if that is known.
    count: Cell<Option<usize>>,
}

impl File {
    /// A handle without a file, to be loaded.
    pub(crate) fn empty() -> Self {
        File {
            handle: UnsafeCell::new(raw::File {
                at: std::ptr::null_mut(),
            }),
            rows: Lazy::default(),
            meta: Lazy::default(),
            count: Cell::default(),
        }
    }

    fn at(&self) -> *mut raw::File {
        self.handle.get()
    }

    /// The handle for a call that edits the file.
    fn edited(&mut self) -> *mut raw::File {
        self.count.set(None);
        self.edited_inside()
    }

    /// The handle for a call that edits the file, and makes and removes no section.
    fn edited_inside(&mut self) -> *mut raw::File {
        self.rows.clear();
        self.meta.clear();
        self.at()
    }

    /// How many sections there are.
    pub(crate) fn count(&self) -> usize {
        let count = self.count.get();
        let count = count.unwrap_or_else(|| self.seen().sections().len());
        self.count.set(Some(count));
        count
    }

    /// The sections, as they are until the file is edited.
    pub(crate) fn seen(&self) -> Seen<'_> {
        let rows = self.rows.get(|| {
            let mut view = View(raw::View {
                sections: std::ptr::null(),
                sections_len: 0,
                entries: std::ptr::null(),
                entries_len: 0,
                origins: std::ptr::null(),
                origins_len: 0,
                text: std::ptr::null(),
                text_len: 0,
                owner: std::ptr::null_mut(),
            });
            // SAFETY: the handle has a file, which no other call has now, and the view is a new one.
            surely(unsafe { raw::gix_config_view_file(self.at(), &mut view.0) });
            Rows::of(view)
        });
        Seen::of(self, rows)
    }

    /// The file of a text; else the number, and where the text is refused.
    pub(crate) fn parse(text: &[u8]) -> Result<Self, (Number, Place)> {
        let (file, mut place) = (File::empty(), Place::default());
        let (at, len) = (text.as_ptr(), text.len());
        // SAFETY: the text is as long as is said, and the handle is a new one.
        let answer = unsafe { raw::gix_config_file_parse(at, len, false, file.at(), &mut place) };
        match done(answer) {
            Ok(()) => Ok(file),
            Err(number @ (number::UNEXPECTED_TOKEN | number::INPUT_TOO_LARGE)) => {
                Err((number, place))
            }
            Err(number) => unforeseen(number),
        }
    }

    /// As `parse`, of a text that comes from elsewhere; also the number for a path that is not UTF-8, with any place.
    pub(crate) fn parse_as(
        text: &[u8],
        meta: &Metadata<'_>,
        lossy: bool,
    ) -> Result<Self, (Number, Place)> {
        let (file, mut place) = (File::empty(), Place::default());
        let (at, len) = (text.as_ptr(), text.len());
        // SAFETY: the text is as long as is said, and the handle is a new one.
        let answer =
            unsafe { raw::gix_config_file_parse_as(at, len, meta, lossy, file.at(), &mut place) };
        match done(answer) {
            Ok(()) => Ok(file),
            Err(number @ (number::UNEXPECTED_TOKEN | number::INPUT_TOO_LARGE | NOT_UTF8)) => {
                Err((number, place))
            }
            Err(number) => unforeseen(number),
        }
    }

    /// Loads into the file, of what was told. Returns the path or the name that the call returns, too.
    pub(crate) fn load(
        &mut self,
        told: &mut Told,
        wanted: Wanted<'_>,
    ) -> (Result<(), Number>, Bytes) {
        let (told, file, mut asked) = (told.at(), self.edited(), Bytes::empty());
        let about = &mut asked.0;
        // SAFETY: what is told is another handle than the file's, which no other call has now.
        let answer = unsafe {
            match wanted {
                Wanted::File(load) => raw::gix_config_load_told(told, load, file, about),
                Wanted::Globals(places) => {
                    raw::gix_config_load_globals_told(told, places, file, about)
                }
                Wanted::Variables(includes) => {
                    raw::gix_config_load_env_told(told, includes, file, about)
                }
                Wanted::Repository(repository) => {
                    raw::gix_config_load_repository_told(told, repository, file, about)
                }
                Wanted::Included(includes) => {
                    raw::gix_config_resolve_includes_told(told, file, includes, about)
                }
            }
        };
        (done(answer), asked)
    }

    /// A copy.
    pub(crate) fn copy(&self) -> Self {
        let copy = File::empty();
        // SAFETY: the handle has a file, and the other is a new one.
        surely(unsafe { raw::gix_config_file_clone(self.at(), copy.at()) });
        copy
    }

    /// Appends a copy of another file.
    pub(crate) fn append(&mut self, other: &File) -> Result<(), Number> {
        // SAFETY: both handles have files, and they are two, since this one is borrowed alone.
        done(unsafe { raw::gix_config_file_append(self.edited(), other.at()) })
    }

    pub(crate) fn is_equal(&self, other: &File) -> bool {
        let mut equal = true;
        if !std::ptr::eq(self, other) {
            // SAFETY: both handles have files, and they are two.
            surely(unsafe { raw::gix_config_file_equal(self.at(), other.at(), &mut equal) });
        }
        equal
    }

    /// The text; with a filter that of the sections that it keeps.
    pub(crate) fn text(&self, filter: Option<&Filter>) -> Bytes {
        let mut text = Bytes::empty();
        // SAFETY: the handle has a file, which no other call has now.
        surely(unsafe {
            match filter {
                None => raw::gix_config_file_text(self.at(), &mut text.0),
                Some(filter) => raw::gix_config_file_text_filter(self.at(), filter, &mut text.0),
            }
        });
        text
    }

    /// The text of the section at a place, where there is one.
    pub(crate) fn section_text(&self, place: usize) -> Bytes {
        let mut text = Bytes::empty();
        // SAFETY: the handle has a file, which no other call has now.
        surely(unsafe { raw::gix_config_section_text(self.at(), place, &mut text.0) });
        text
    }

    /// Where the file comes from.
    pub(crate) fn meta(&self) -> &meta::Metadata {
        self.meta.get(|| {
            let (mut origin, mut path) = (Origin::default(), Bytes::empty());
            // SAFETY: the handle has a file, which no other call has now.
            surely(unsafe { raw::gix_config_file_origin(self.at(), &mut origin, &mut path.0) });
            let path = origin.has_path.then(|| path.bytes());
            meta::Metadata::of(path, origin.source, origin.level, origin.trust)
        })
    }

    /// The last value of a key; with a filter in the sections that it keeps.
    pub(crate) fn value(&self, key: &Key<'_>, filter: Option<&Filter>) -> Result<Bytes, Number> {
        let mut value = Bytes::empty();
        // SAFETY: the handle has a file, which no other call has now.
        done(unsafe {
            match filter {
                None => raw::gix_config_value(self.at(), key, &mut value.0),
                Some(filter) => raw::gix_config_value_filter(self.at(), key, filter, &mut value.0),
            }
        })?;
        Ok(value)
    }

    /// All values of a key; with a filter in the sections that it keeps.
    pub(crate) fn values(
        &self,
        key: &Key<'_>,
        filter: Option<&Filter>,
    ) -> Result<Vec<BString>, Number> {
        let mut list = List::empty();
        // SAFETY: the handle has a file, which no other call has now.
        done(unsafe {
            match filter {
                None => raw::gix_config_values(self.at(), key, &mut list.0),
                Some(filter) => raw::gix_config_values_filter(self.at(), key, filter, &mut list.0),
            }
        })?;
        Ok(list.texts())
    }

    /// The last value of a key as a boolean; with a filter in the sections that it keeps.
    pub(crate) fn boolean(&self, key: &Key<'_>, filter: Option<&Filter>) -> Result<bool, Number> {
        let mut value = false;
        // SAFETY: the handle has a file, which no other call has now.
        done(unsafe {
            match filter {
                None => raw::gix_config_boolean(self.at(), key, &mut value),
                Some(filter) => raw::gix_config_boolean_filter(self.at(), key, filter, &mut value),
            }
        })?;
        Ok(value)
    }

    /// The last value of a key as an integer; with a filter in the sections that it keeps.
    pub(crate) fn integer(&self, key: &Key<'_>, filter: Option<&Filter>) -> Result<i64, Number> {
        let mut value = 0;
        // SAFETY: the handle has a file, which no other call has now.
        done(unsafe {
            match filter {
                None => raw::gix_config_integer(self.at(), key, &mut value),
                Some(filter) => raw::gix_config_integer_filter(self.at(), key, filter, &mut value),
            }
        })?;
        Ok(value)
    }

    /// The last value of a key as a path, with its shorthand replaced.
    pub(crate) fn path(&self, key: &Key<'_>, folders: &Folders<'_>) -> Result<Bytes, Number> {
        let mut path = Bytes::empty();
        // SAFETY: the handle has a file, which no other call has now.
        done(unsafe { raw::gix_config_path(self.at(), key, folders, &mut path.0) })?;
        Ok(path)
    }

    /// Sets a value, and returns the raw text of the one that was there, if there was an entry.
    pub(crate) fn set_value(
        &mut self,
        key: &Key<'_>,
        value: &[u8],
    ) -> Result<Option<BString>, Number> {
        let (mut had, mut old) = (false, Bytes::empty());
        let (at, len) = (value.as_ptr(), value.len());
        // SAFETY: the handle has a file, and the value is as long as is said.
        let answer =
            unsafe { raw::gix_config_set_value(self.edited(), key, at, len, &mut had, &mut old.0) };
        done(answer)?;
        Ok(had.then(|| old.copy()))
    }

    pub(crate) fn set_existing_value(&mut self, key: &Key<'_>, value: &[u8]) -> Result<(), Number> {
        let (at, len) = (value.as_ptr(), value.len());
        // SAFETY: the handle has a file, and the value is as long as is said.
        done(unsafe { raw::gix_config_set_existing_value(self.edited_inside(), key, at, len) })
    }

    pub(crate) fn set_existing_values(
        &mut self,
        key: &Key<'_>,
        values: &[Text<'_>],
    ) -> Result<(), Number> {
        let (at, len) = (values.as_ptr(), values.len());
        // SAFETY: the handle has a file, and there are as many values as is said, which lie there until the call is done.
        done(unsafe { raw::gix_config_set_existing_values(self.edited_inside(), key, at, len) })
    }

    /// Gives one of the entries of a key another value.
    pub(crate) fn set_nth_value(
        &mut self,
        key: &Key<'_>,
        index: usize,
        value: &[u8],
    ) -> Result<(), Number> {
        let (at, len) = (value.as_ptr(), value.len());
        // SAFETY: the handle has a file, and the value is as long as is said.
        done(unsafe { raw::gix_config_set_nth_value(self.edited_inside(), key, index, at, len) })
    }

    /// Deletes one of the entries of a key, where there is one.
    pub(crate) fn delete_nth_value(&mut self, key: &Key<'_>, index: usize) {
        // SAFETY: the handle has a file.
        surely(unsafe { raw::gix_config_delete_nth_value(self.edited_inside(), key, index) });
    }

    /// Makes a section after all others, and returns its place.
    pub(crate) fn new_section(&mut self, names: &Section<'_>) -> Result<usize, Number> {
        let place = self.count();
        // SAFETY: the handle has a file.
        done(unsafe { raw::gix_config_section_new(self.edited_inside(), names) })?;
        self.count.set(Some(place + 1));
        Ok(place)
    }

    pub(crate) fn rename_section(
        &mut self,
        names: &Section<'_>,
        new_names: &Section<'_>,
    ) -> Result<(), Number> {
        // SAFETY: the handle has a file.
        done(unsafe { raw::gix_config_section_rename(self.edited_inside(), names, new_names) })
    }

    /// Removes the section at a place, where there is one.
    pub(crate) fn remove_section_at(&mut self, place: usize) {
        // SAFETY: the handle has a file.
        surely(unsafe { raw::gix_config_section_remove_at(self.edited(), place) });
    }

    pub(crate) fn rename_section_at(
        &mut self,
        place: usize,
        names: &Section<'_>,
    ) -> Result<(), Number> {
        // SAFETY: the handle has a file.
        done(unsafe { raw::gix_config_section_rename_at(self.edited_inside(), place, names) })
    }

    /// Sets the trust of the section at a place, where there is one.
    pub(crate) fn set_trust_at(&mut self, place: usize, trust: u32) {
        // SAFETY: the handle has a file.
        surely(unsafe { raw::gix_config_section_set_trust_at(self.edited_inside(), place, trust) });
    }

    pub(crate) fn push_line_at(&mut self, place: usize, line: &Line<'_>) -> Result<(), Number> {
        // SAFETY: the handle has a file.
        done(unsafe { raw::gix_config_push_line_at(self.edited_inside(), place, line) })
    }

    pub(crate) fn push_below_last_at(
        &mut self,
        place: usize,
        assigned: &Assigned<'_>,
    ) -> Result<(), Number> {
        // SAFETY: the handle has a file.
        done(unsafe { raw::gix_config_push_below_last_at(self.edited_inside(), place, assigned) })
    }

    pub(crate) fn push_newline_at(&mut self, place: usize) -> Result<(), Number> {
        // SAFETY: the handle has a file.
        done(unsafe { raw::gix_config_push_newline_at(self.edited_inside(), place) })
    }

    /// Sets a value in the section at a place, and returns the raw text of the one that was there, if there was an entry.
    pub(crate) fn set_value_at(
        &mut self,
        place: usize,
        assigned: &Assigned<'_>,
    ) -> Result<Option<BString>, Number> {
        let (mut had, mut old) = (false, Bytes::empty());
        // SAFETY: the handle has a file.
        let answer = unsafe {
            raw::gix_config_set_value_at(
                self.edited_inside(),
                place,
                assigned,
                &mut had,
                &mut old.0,
            )
        };
        done(answer)?;
        Ok(had.then(|| old.copy()))
    }

    /// Removes the last entry of a name from the section at a place, and returns the raw text of its value.
    pub(crate) fn remove_value_at(&mut self, place: usize, name: &str) -> Result<BString, Number> {
        let mut old = Bytes::empty();
        let (at, len) = (name.as_ptr(), name.len());
        // SAFETY: the handle has a file, and the name is as long as is said.
        done(unsafe {
            raw::gix_config_remove_value_at(self.edited_inside(), place, at, len, &mut old.0)
        })?;
        Ok(old.copy())
    }

    /// Removes the marked entries of a name from the section at a place, where there is one, and returns how many went.
    pub(crate) fn remove_marked_at(&mut self, place: usize, name: &str, marks: &[bool]) -> usize {
        let mut count = 0;
        let (at, len) = (name.as_ptr(), name.len());
        let (marks, marks_len) = (marks.as_ptr(), marks.len());
        let file = self.edited_inside();
        // SAFETY: the handle has a file, and name and marks are as long as is said.
        surely(unsafe {
            raw::gix_config_remove_marked_at(file, place, at, len, marks, marks_len, &mut count)
        });
        count
    }

    /// Removes the last entry from the section at a place, and returns its name and value.
    pub(crate) fn pop_value_at(&mut self, place: usize) -> Result<(BString, BString), Number> {
        let (mut name, mut value) = (Bytes::empty(), Bytes::empty());
        let file = self.edited_inside();
        // SAFETY: the handle has a file.
        done(unsafe { raw::gix_config_pop_value_at(file, place, &mut name.0, &mut value.0) })?;
        Ok((name.copy(), value.copy()))
    }
}

impl Drop for File {
    fn drop(&mut self) {
        // SAFETY: the handle is empty or has a file.
        unsafe { raw::gix_config_file_close(self.at()) }
    }
}

#[cfg(test)]
mod tests {
    use super::File;

    #[test]
    #[should_panic(expected = "libgix_config answered 102: ")]
    fn a_number_that_is_not_answered_is_named() {
        File::empty().text(None);
    }

    #[test]
    #[should_panic(expected = "libgix_config answered 102: ")]
    fn files_are_not_equal_by_such_a_number() {
        File::empty().is_equal(&File::empty());
    }
}
