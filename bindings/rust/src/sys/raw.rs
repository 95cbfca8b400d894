//! What crosses between Rust and libgix_config, as include/gix_config.h has it, with its words.
//!
//! Made by tools/c_header of crates/gix_config_c.
// (all calls of the library, also those that the crate doesn't make)
#![allow(dead_code)]
use std::ffi::c_void;
use std::marker::PhantomData;

// The numbers that calls answer. Up to 27 they are those of docs/refusals.md; no call answers 10 or 28.
/// The call is done.
pub(crate) const DONE: u32 = 0;
/// A text can't be read on at some place.
pub(crate) const UNEXPECTED_TOKEN: u32 = 1;
/// A text has more than 4294967295 bytes.
pub(crate) const INPUT_TOO_LARGE: u32 = 2;
/// The file would have more than 4294967295 bytes, or more sections than there are numbers.
pub(crate) const SPAN_TOO_LARGE: u32 = 3;
/// The name can't be that of a section that is made.
pub(crate) const INVALID_SECTION_NAME: u32 = 4;
/// The name can't be that of a subsection that is made.
pub(crate) const INVALID_SUBSECTION: u32 = 5;
/// The name can't be that of a value.
pub(crate) const INVALID_VALUE_NAME: u32 = 6;
/// No section has the name.
pub(crate) const SECTION_MISSING: u32 = 7;
/// No section of the name has the subsection.
pub(crate) const SUBSECTION_MISSING: u32 = 8;
/// The sections have no such value.
pub(crate) const KEY_MISSING: u32 = 9;
/// The value is not of the type asked for, or 64 bits don't hold it.
pub(crate) const BAD_VALUE: u32 = 11;
/// A path needs a directory that is not known, or is empty.
pub(crate) const MISSING_FOLDER: u32 = 12;
/// A path is not UTF-8.
pub(crate) const PATH_NOT_UTF8: u32 = 13;
/// The name of a path's user is not UTF-8.
pub(crate) const USER_NOT_UTF8: u32 = 14;
/// Files include each other too deeply.
pub(crate) const INCLUDE_DEPTH_EXCEEDED: u32 = 15;
/// The path of an include is relative, and its file has no path.
pub(crate) const MISSING_CONFIG_PATH: u32 = 16;
/// The condition of an include is about a repository, and there is none.
pub(crate) const MISSING_GIT_DIR: u32 = 17;
/// The repository's directory can't be resolved.
pub(crate) const REALPATH: u32 = 18;
/// A file that is included can't be opened.
pub(crate) const INCLUDE_NOT_OPENED: u32 = 19;
/// A file that is included can't be read.
pub(crate) const INCLUDE_NOT_READ: u32 = 20;
/// A file that is loaded can't be opened or read.
pub(crate) const FILE_NOT_READ: u32 = 21;
/// The key or the value that variables of the environment set is not UTF-8.
pub(crate) const ILLFORMED_VARIABLE: u32 = 22;
/// `GIT_CONFIG_COUNT` is no number.
pub(crate) const INVALID_CONFIG_COUNT: u32 = 23;
/// The variable of a key, such as `GIT_CONFIG_KEY_0`, is not set.
pub(crate) const INVALID_KEY_ID: u32 = 24;
/// The key that a variable sets has no dot.
pub(crate) const INVALID_KEY_VALUE: u32 = 25;
/// The variable of a value, such as `GIT_CONFIG_VALUE_0`, is not set.
pub(crate) const INVALID_VALUE_ID: u32 = 26;
/// Out of memory.
pub(crate) const OUT_OF_MEMORY: u32 = 27;
/// There is no such thing.
pub(crate) const NOTHING_THERE: u32 = 100;
/// A name is not UTF-8.
pub(crate) const NOT_UTF8: u32 = 101;
/// The handle is empty, or holds something else.
pub(crate) const WRONG_HANDLE: u32 = 102;
/// Nothing was told of a file that is needed: tell it, and call again.
pub(crate) const NOT_TOLD: u32 = 103;
/// No source, or no trust, has the number.
pub(crate) const NO_SUCH_NUMBER: u32 = 104;
/// Nothing was told of a variable that is needed: tell it, and call again.
pub(crate) const VARIABLE_NOT_TOLD: u32 = 105;

// Where sections come from, and how far that is trusted. The numbers of sources add up.
/// The configuration that was installed with git.
pub(crate) const SOURCE_GIT_INSTALLATION: u32 = 1;
/// The configuration of the whole machine.
pub(crate) const SOURCE_SYSTEM: u32 = 2;
/// The user's configuration in `git/config` of the directory for configuration.
pub(crate) const SOURCE_GIT: u32 = 4;
/// The user's configuration in `.gitconfig` of the home directory.
pub(crate) const SOURCE_USER: u32 = 8;
/// The repository's configuration.
pub(crate) const SOURCE_LOCAL: u32 = 16;
/// The configuration of one worktree.
pub(crate) const SOURCE_WORKTREE: u32 = 32;
/// Variables of the environment.
pub(crate) const SOURCE_ENV: u32 = 64;
/// Options of the command line.
pub(crate) const SOURCE_CLI: u32 = 128;
/// The calling program: also a text that it parses.
pub(crate) const SOURCE_API: u32 = 256;
/// Variables of the environment that override everything else.
pub(crate) const SOURCE_ENV_OVERRIDE: u32 = 512;
/// All of these.
pub(crate) const SOURCES_ALL: u32 = 1023;
/// Someone else owns the file.
pub(crate) const TRUST_REDUCED: u32 = 0;
/// Who runs the program owns the file, or it comes from none.
pub(crate) const TRUST_FULL: u32 = 1;

// The version of this library.
/// Its first number.
pub(crate) const VERSION_MAJOR: u32 = 0;
/// Its second number.
pub(crate) const VERSION_MINOR: u32 = 1;
/// Its third number.
pub(crate) const VERSION_PATCH: u32 = 0;

/// A place for a file, {0} at first. It is never copied, and closed with gix_config_file_close.
#[repr(C)]
pub(crate) struct File {
    pub(super) at: *mut c_void,
}

/// A place for a list of texts, entries, sections or differences, {0} at first. It is never copied,
/// and closed with gix_config_list_close.
#[repr(C)]
pub(crate) struct List {
    pub(super) at: *mut c_void,
}

/// A place for what a program tells of files and of variables, {0} at first. It is never copied,
/// and closed with gix_config_told_close.
#[repr(C)]
pub(crate) struct Told {
    pub(super) at: *mut c_void,
}

/// Bytes that are the program's to read until it frees them. {0} at first; never copied; freed with
/// gix_config_bytes_free.
#[repr(C)]
pub(crate) struct Bytes {
    /// Where they lie.
    pub(super) at: *const u8,
    /// How many they are.
    pub(super) len: usize,
    /// Their owner.
    pub(super) owner: *mut c_void,
}

/// Bytes that lie in a handle, until it is edited or closed.
#[repr(C)]
#[derive(Clone, Copy)]
pub(crate) struct Text<'a> {
    /// Where they lie.
    pub(super) at: *const u8,
    /// How many they are.
    pub(super) len: usize,
    /// For as long as they lie there.
    pub(super) lent: PhantomData<&'a [u8]>,
}

/// The names of a value: its section's, its subsection's if there is one, and its own.
#[repr(C)]
#[derive(Clone, Copy)]
pub(crate) struct Key<'a> {
    /// The section's name.
    pub(crate) section: Text<'a>,
    /// Whether there is a subsection.
    pub(crate) has_subsection: bool,
    /// The subsection's name, if there is one.
    pub(crate) subsection: Text<'a>,
    /// The value's name.
    pub(crate) name: Text<'a>,
}

/// The names of a section: its own, and its subsection's if there is one.
#[repr(C)]
#[derive(Clone, Copy)]
pub(crate) struct Section<'a> {
    /// The section's name.
    pub(crate) name: Text<'a>,
    /// Whether there is a subsection.
    pub(crate) has_subsection: bool,
    /// The subsection's name, if there is one.
    pub(crate) subsection: Text<'a>,
}

/// Where the parts of an entry lie: in the list that it was taken from, until that is closed.
#[repr(C)]
#[derive(Clone, Copy)]
pub(crate) struct Entry<'a> {
    /// The section's name, in lower case.
    pub(crate) section: Text<'a>,
    /// Whether there is a subsection.
    pub(crate) has_subsection: bool,
    /// The subsection's name, if there is one.
    pub(crate) subsection: Text<'a>,
    /// The entry's own name, in lower case.
    pub(crate) name: Text<'a>,
    /// Whether there is a value: not for an entry without `=`.
    pub(crate) has_value: bool,
    /// What the value means, if there is one.
    pub(crate) value: Text<'a>,
}

/// Where the names of a section lie: in the list that it was taken from, until that is closed. And
/// where the section comes from.
#[repr(C)]
#[derive(Clone, Copy)]
pub(crate) struct ListedSection<'a> {
    /// The name, as it is spelled.
    pub(crate) name: Text<'a>,
    /// Whether there is a subsection.
    pub(crate) has_subsection: bool,
    /// The subsection's name, if there is one.
    pub(crate) subsection: Text<'a>,
    /// Whether it comes from a file with a path.
    pub(crate) has_path: bool,
    /// The path of its file, if there is one.
    pub(crate) path: Text<'a>,
    /// The place that it was read from: one of the sources' numbers.
    pub(crate) source: u32,
    /// How many includes led to its file: 0 for a file that was not included.
    pub(crate) level: u32,
    /// How far it is trusted: one of the numbers of trust.
    pub(crate) trust: u32,
    /// How many entries it has.
    pub(crate) entries: usize,
}

/// Where the parts of a difference lie: in the list that it was taken from, until that is closed.
#[repr(C)]
#[derive(Clone, Copy)]
pub(crate) struct Difference<'a> {
    /// Whether the entry is the second file's.
    pub(crate) is_other: bool,
    /// The entry.
    pub(crate) entry: Entry<'a>,
}

/// Where a text can't be read on.
#[repr(C)]
#[derive(Clone, Copy, Default)]
pub(crate) struct Place {
    /// The line, from 1.
    pub(crate) line: usize,
    /// The column in bytes, from 1.
    pub(crate) column: usize,
    /// How many bytes are before it.
    pub(crate) offset: usize,
}

/// Which sections are asked: those of some sources that are trusted enough.
#[repr(C)]
#[derive(Clone, Copy, Default)]
pub(crate) struct Filter {
    /// The sources, as the sum of their numbers.
    pub(crate) sources: u32,
    /// The least trust.
    pub(crate) least_trust: u32,
}

/// The directories that the shorthands of paths stand for. One that is not known refuses the paths
/// that need it.
#[repr(C)]
#[derive(Clone, Copy)]
pub(crate) struct Folders<'a> {
    /// Whether it is known where git is installed.
    pub(crate) has_installation: bool,
    /// The directory where git is installed, for `%(prefix)/`.
    pub(crate) installation: Text<'a>,
    /// Whether the user's home directory is known.
    pub(crate) has_home: bool,
    /// The user's home directory, for `~/`.
    pub(crate) home: Text<'a>,
}

/// How a text is formatted. gix_config_layout_default fills it.
#[repr(C)]
#[derive(Clone, Copy, Default)]
pub(crate) struct Layout {
    /// Whether whitespace stays before comments on lines of their own before the first header.
    pub(crate) keeps_root_blanks: bool,
    /// If they don't stay: whether tabs come in their place, else spaces.
    pub(crate) has_root_tabs: bool,
    /// And how many.
    pub(crate) root_indent: usize,
    /// Whether tabs come before what begins a line after a header, else spaces. That is a name or a
    /// comment.
    pub(crate) has_tabs: bool,
    /// And how many.
    pub(crate) indent: usize,
    /// Whether there is a space on either side of `=`.
    pub(crate) spaces_around_separator: bool,
    /// Whether lines end as the first line of the text does.
    pub(crate) detects_newline: bool,
    /// If not: whether they end with CR and LF, else with LF.
    pub(crate) is_crlf: bool,
    /// Whether a text that isn't empty ends with one line ending.
    pub(crate) ensures_trailing_newline: bool,
    /// Whether blank lines before the first line that isn't blank are limited.
    pub(crate) limits_leading_blank_lines: bool,
    /// How many stay then.
    pub(crate) max_leading_blank_lines: usize,
    /// Whether blank lines that stand together after that line are limited.
    pub(crate) limits_blank_lines: bool,
    /// How many stay then.
    pub(crate) max_blank_lines: usize,
}

/// How includes are followed: ten files deep; deeper ones are refused, and so is a path relative to
/// the directory of a file that has no path.
#[repr(C)]
#[derive(Clone, Copy)]
pub(crate) struct Includes<'a> {
    /// Whether an include that lacks something is refused; else it is left out. That is a path
    /// whose shorthand stands for nothing, or a condition on the repository's directory if there is
    /// no repository.
    pub(crate) strict: bool,
    /// Whether whitespace, line endings and comments of the files that are read are left out.
    pub(crate) lossy: bool,
    /// The directories that the shorthands of paths stand for.
    pub(crate) folders: Folders<'a>,
    /// Whether there is a repository.
    pub(crate) has_git_folder: bool,
    /// The directory of the repository, for the conditions `gitdir:` and `gitdir/i:`.
    pub(crate) git_folder: Text<'a>,
    /// The same directory, with its symbolic links resolved.
    pub(crate) real_git_folder: Text<'a>,
    /// Whether there is a branch.
    pub(crate) has_branch: bool,
    /// The full name of the branch, as `refs/heads/main`, for the condition `onbranch:`.
    pub(crate) branch: Text<'a>,
}

/// Which file is loaded, and how includes are followed.
#[repr(C)]
#[derive(Clone, Copy)]
pub(crate) struct Load<'a> {
    /// Its path.
    pub(crate) path: Text<'a>,
    /// The place that it stands for: one of the sources' numbers.
    pub(crate) source: u32,
    /// How far it is trusted: one of the numbers of trust.
    pub(crate) trust: u32,
    /// How includes are followed.
    pub(crate) includes: Includes<'a>,
}

/// Where a text comes from that is parsed: its sections come from there, too.
#[repr(C)]
#[derive(Clone, Copy)]
pub(crate) struct Metadata<'a> {
    /// Whether it is that of a file with a path.
    pub(crate) has_path: bool,
    /// The path of its file, if there is one: that of an include is relative to its directory.
    pub(crate) path: Text<'a>,
    /// The place that it stands for: one of the sources' numbers.
    pub(crate) source: u32,
    /// How far it is trusted: one of the numbers of trust.
    pub(crate) trust: u32,
}

/// The places of configuration that a program knows: what variables of the environment say comes
/// before it.
#[repr(C)]
#[derive(Clone, Copy)]
pub(crate) struct Places<'a> {
    /// Whether there is configuration that was installed with git.
    pub(crate) has_installation: bool,
    /// Its path, if there is some.
    pub(crate) installation: Text<'a>,
    /// The directory that `etc/gitconfig` is in, the configuration of the whole machine: `/` for
    /// most.
    pub(crate) system_prefix: Text<'a>,
    /// Whether the user's home directory is known.
    pub(crate) has_home: bool,
    /// The user's home directory, for `~/` in the paths of includes.
    pub(crate) home: Text<'a>,
}

/// A repository: its directories, and the places of configuration besides.
#[repr(C)]
#[derive(Clone, Copy)]
pub(crate) struct Repository<'a> {
    /// The directory of the repository, such as `/home/ada/project/.git`: its configuration is in
    /// the file `config` there.
    pub(crate) git_folder: Text<'a>,
    /// The same directory, with its symbolic links resolved.
    pub(crate) real_git_folder: Text<'a>,
    /// The places of configuration.
    pub(crate) places: Places<'a>,
}

/// Where a whole file comes from.
#[repr(C)]
#[derive(Clone, Copy, Default)]
pub(crate) struct Origin {
    /// The place that it was read from: one of the sources' numbers.
    pub(crate) source: u32,
    /// How many includes led to it: 0 for a file that was not included.
    pub(crate) level: u32,
    /// How far it is trusted: one of the numbers of trust.
    pub(crate) trust: u32,
    /// Whether it has a path.
    pub(crate) has_path: bool,
}

/// A line of a section: a name, with a value, a comment behind it, both or none.
#[repr(C)]
#[derive(Clone, Copy)]
pub(crate) struct Line<'a> {
    /// The name.
    pub(crate) name: Text<'a>,
    /// Whether there is a value: without one the line is the name alone, which is true as a
    /// boolean.
    pub(crate) has_value: bool,
    /// The value, if there is one.
    pub(crate) value: Text<'a>,
    /// Whether there is a comment.
    pub(crate) has_comment: bool,
    /// The comment, if there is one, without its mark.
    pub(crate) comment: Text<'a>,
}

/// A name with its value.
#[repr(C)]
#[derive(Clone, Copy)]
pub(crate) struct Assigned<'a> {
    /// The name.
    pub(crate) name: Text<'a>,
    /// The value.
    pub(crate) value: Text<'a>,
}

/// Where some bytes lie in the text of a view. A zero byte is behind them, which they don't count.
#[repr(C)]
#[derive(Clone, Copy, Default)]
pub(crate) struct Part {
    /// The place of the first one, from 0.
    pub(crate) at: usize,
    /// How many they are.
    pub(crate) len: usize,
}

/// An entry in a view.
#[repr(C)]
#[derive(Clone, Copy)]
pub(crate) struct EntryRow {
    /// Its name, as it is spelled.
    pub(crate) name: Part,
    /// What the value means, if there is one.
    pub(crate) value: Part,
    /// Whether there is a value: not for an entry without `=`.
    pub(crate) has_value: bool,
}

/// Where sections in a view come from.
#[repr(C)]
#[derive(Clone, Copy)]
pub(crate) struct OriginRow {
    /// The path of their file, if there is one.
    pub(crate) path: Part,
    /// Whether they come from a file with a path.
    pub(crate) has_path: bool,
    /// The place that they were read from: one of the sources' numbers.
    pub(crate) source: u32,
    /// How many includes led to their file: 0 for a file that was not included.
    pub(crate) level: u32,
    /// How far they are trusted: one of the numbers of trust.
    pub(crate) trust: u32,
}

/// A section in a view.
#[repr(C)]
#[derive(Clone, Copy)]
pub(crate) struct SectionRow {
    /// Its name, as it is spelled.
    pub(crate) name: Part,
    /// The subsection's name, if there is one.
    pub(crate) subsection: Part,
    /// Whether there is a subsection.
    pub(crate) has_subsection: bool,
    /// The place of its origin among the view's, from 0.
    pub(crate) origin: usize,
    /// The place of its first entry among the view's, from 0.
    pub(crate) entries_at: usize,
    /// How many entries it has: they stand one after the other.
    pub(crate) entries_len: usize,
    /// Its number in its file. It stays whatever is added or removed around the section, and no
    /// other section gets it.
    pub(crate) number: usize,
}

/// All sections and entries of a file as it was when the view was made. They are the program's to
/// read until it frees the view. {0} at first; never copied; freed with gix_config_view_free.
#[repr(C)]
pub(crate) struct View {
    /// The sections, in order.
    pub(super) sections: *const SectionRow,
    /// How many they are.
    pub(super) sections_len: usize,
    /// The entries of all sections, in order.
    pub(super) entries: *const EntryRow,
    /// How many they are.
    pub(super) entries_len: usize,
    /// Where sections come from.
    pub(super) origins: *const OriginRow,
    /// How many they are.
    pub(super) origins_len: usize,
    /// The bytes of names, values and paths, each with a zero byte behind it.
    pub(super) text: *const u8,
    /// How many they are.
    pub(super) text_len: usize,
    /// The owner of all these.
    pub(super) owner: *mut c_void,
}

extern "C" {
    pub(super) fn gix_config_file_append(file: *mut File, other_file: *const File) -> u32;
    pub(super) fn gix_config_file_equal(
        file: *const File,
        other_file: *const File,
        equal: *mut bool,
    ) -> u32;
    pub(super) fn gix_config_differences(
        file: *const File,
        other_file: *const File,
        list: *mut List,
    ) -> u32;
    pub(super) fn gix_config_list_difference(
        list: *const List,
        index: usize,
        difference: *mut Difference<'_>,
    ) -> u32;
    pub(super) fn gix_config_push_value(
        file: *mut File,
        key: *const Key<'_>,
        has_value: bool,
        value: *const u8,
        value_len: usize,
    ) -> u32;
    pub(super) fn gix_config_remove_value(
        file: *mut File,
        key: *const Key<'_>,
        old: *mut Bytes,
    ) -> u32;
    pub(super) fn gix_config_entries(file: *const File, list: *mut List) -> u32;
    pub(super) fn gix_config_list_entry(
        list: *const List,
        index: usize,
        entry: *mut Entry<'_>,
    ) -> u32;
    pub(super) fn gix_config_load_env_told(
        told: *const Told,
        includes: *const Includes<'_>,
        file: *mut File,
        asked: *mut Bytes,
    ) -> u32;
    pub(super) fn gix_config_set_existing_value(
        file: *mut File,
        key: *const Key<'_>,
        value: *const u8,
        value_len: usize,
    ) -> u32;
    pub(super) fn gix_config_set_existing_values(
        file: *mut File,
        key: *const Key<'_>,
        values: *const Text<'_>,
        values_len: usize,
    ) -> u32;
    pub(super) fn gix_config_file_text(file: *const File, text: *mut Bytes) -> u32;
    pub(super) fn gix_config_bytes_free(bytes: *mut Bytes);
    pub(super) fn gix_config_refusal_text(number: u32, text: *mut Text<'static>);
    pub(super) fn gix_config_value_filter(
        file: *const File,
        key: *const Key<'_>,
        filter: *const Filter,
        value: *mut Bytes,
    ) -> u32;
    pub(super) fn gix_config_values_filter(
        file: *const File,
        key: *const Key<'_>,
        filter: *const Filter,
        list: *mut List,
    ) -> u32;
    pub(super) fn gix_config_boolean_filter(
        file: *const File,
        key: *const Key<'_>,
        filter: *const Filter,
        value: *mut bool,
    ) -> u32;
    pub(super) fn gix_config_integer_filter(
        file: *const File,
        key: *const Key<'_>,
        filter: *const Filter,
        value: *mut i64,
    ) -> u32;
    pub(super) fn gix_config_file_text_filter(
        file: *const File,
        filter: *const Filter,
        text: *mut Bytes,
    ) -> u32;
    pub(super) fn gix_config_load_globals_told(
        told: *const Told,
        places: *const Places<'_>,
        file: *mut File,
        asked: *mut Bytes,
    ) -> u32;
    pub(super) fn gix_config_layout_default(layout: *mut Layout);
    pub(super) fn gix_config_normalize(
        text: *const u8,
        text_len: usize,
        layout: *const Layout,
        laid_out: *mut Bytes,
        place: *mut Place,
    ) -> u32;
    pub(super) fn gix_config_wildmatch(
        pattern: *const u8,
        pattern_len: usize,
        text: *const u8,
        text_len: usize,
        ignore_case: bool,
        is_match: *mut bool,
    ) -> u32;
    pub(super) fn gix_config_push_below_last_at(
        file: *mut File,
        place: usize,
        assigned: *const Assigned<'_>,
    ) -> u32;
    pub(super) fn gix_config_push_newline_at(file: *mut File, place: usize) -> u32;
    pub(super) fn gix_config_remove_marked_at(
        file: *mut File,
        place: usize,
        name: *const u8,
        name_len: usize,
        marks: *const bool,
        marks_len: usize,
        count: *mut usize,
    ) -> u32;
    pub(super) fn gix_config_list_len(list: *const List) -> usize;
    pub(super) fn gix_config_list_at(list: *const List, index: usize, text: *mut Text<'_>) -> u32;
    pub(super) fn gix_config_list_close(list: *mut List);
    pub(super) fn gix_config_load_told(
        told: *const Told,
        load: *const Load<'_>,
        file: *mut File,
        path: *mut Bytes,
    ) -> u32;
    pub(super) fn gix_config_resolve_includes_told(
        told: *const Told,
        file: *mut File,
        includes: *const Includes<'_>,
        path: *mut Bytes,
    ) -> u32;
    pub(super) fn gix_config_value(
        file: *const File,
        key: *const Key<'_>,
        value: *mut Bytes,
    ) -> u32;
    pub(super) fn gix_config_values(
        file: *const File,
        key: *const Key<'_>,
        list: *mut List,
    ) -> u32;
    pub(super) fn gix_config_boolean(
        file: *const File,
        key: *const Key<'_>,
        value: *mut bool,
    ) -> u32;
    pub(super) fn gix_config_integer(
        file: *const File,
        key: *const Key<'_>,
        value: *mut i64,
    ) -> u32;
    pub(super) fn gix_config_file_origin(
        file: *const File,
        origin: *mut Origin,
        path: *mut Bytes,
    ) -> u32;
    pub(super) fn gix_config_set_nth_value(
        file: *mut File,
        key: *const Key<'_>,
        index: usize,
        value: *const u8,
        value_len: usize,
    ) -> u32;
    pub(super) fn gix_config_delete_nth_value(
        file: *mut File,
        key: *const Key<'_>,
        index: usize,
    ) -> u32;
    pub(super) fn gix_config_push_line_at(
        file: *mut File,
        place: usize,
        line: *const Line<'_>,
    ) -> u32;
    pub(super) fn gix_config_set_value_at(
        file: *mut File,
        place: usize,
        assigned: *const Assigned<'_>,
        had: *mut bool,
        old: *mut Bytes,
    ) -> u32;
    pub(super) fn gix_config_remove_value_at(
        file: *mut File,
        place: usize,
        name: *const u8,
        name_len: usize,
        old: *mut Bytes,
    ) -> u32;
    pub(super) fn gix_config_pop_value_at(
        file: *mut File,
        place: usize,
        name: *mut Bytes,
        value: *mut Bytes,
    ) -> u32;
    pub(super) fn gix_config_section_rename_at(
        file: *mut File,
        place: usize,
        new_section: *const Section<'_>,
    ) -> u32;
    pub(super) fn gix_config_section_remove_at(file: *mut File, place: usize) -> u32;
    pub(super) fn gix_config_section_set_trust_at(
        file: *mut File,
        place: usize,
        trust: u32,
    ) -> u32;
    pub(super) fn gix_config_file_parse(
        text: *const u8,
        text_len: usize,
        lossy: bool,
        file: *mut File,
        place: *mut Place,
    ) -> u32;
    pub(super) fn gix_config_file_parse_as(
        text: *const u8,
        text_len: usize,
        meta: *const Metadata<'_>,
        lossy: bool,
        file: *mut File,
        place: *mut Place,
    ) -> u32;
    pub(super) fn gix_config_file_close(file: *mut File);
    pub(super) fn gix_config_file_clone(file: *const File, other_file: *mut File) -> u32;
    pub(super) fn gix_config_path(
        file: *const File,
        key: *const Key<'_>,
        folders: *const Folders<'_>,
        path: *mut Bytes,
    ) -> u32;
    pub(super) fn gix_config_key_parse(text: *const u8, text_len: usize, key: *mut Key<'_>) -> u32;
    pub(super) fn gix_config_boolean_parse(
        text: *const u8,
        text_len: usize,
        value: *mut bool,
    ) -> u32;
    pub(super) fn gix_config_integer_parse(
        text: *const u8,
        text_len: usize,
        value: *mut i64,
    ) -> u32;
    pub(super) fn gix_config_load_repository_told(
        told: *const Told,
        repository: *const Repository<'_>,
        file: *mut File,
        asked: *mut Bytes,
    ) -> u32;
    pub(super) fn gix_config_sections(file: *const File, list: *mut List) -> u32;
    pub(super) fn gix_config_list_section(
        list: *const List,
        index: usize,
        section: *mut ListedSection<'_>,
    ) -> u32;
    pub(super) fn gix_config_section_entries(
        file: *const File,
        index: usize,
        list: *mut List,
    ) -> u32;
    pub(super) fn gix_config_section_text(
        file: *const File,
        place: usize,
        text: *mut Bytes,
    ) -> u32;
    pub(super) fn gix_config_section_remove(file: *mut File, section: *const Section<'_>) -> u32;
    pub(super) fn gix_config_section_new(file: *mut File, section: *const Section<'_>) -> u32;
    pub(super) fn gix_config_section_rename(
        file: *mut File,
        section: *const Section<'_>,
        new_section: *const Section<'_>,
    ) -> u32;
    pub(super) fn gix_config_set_value(
        file: *mut File,
        key: *const Key<'_>,
        value: *const u8,
        value_len: usize,
        had: *mut bool,
        old: *mut Bytes,
    ) -> u32;
    pub(super) fn gix_config_told_new(told: *mut Told) -> u32;
    pub(super) fn gix_config_told_text(
        told: *mut Told,
        path: *const u8,
        path_len: usize,
        text: *const u8,
        text_len: usize,
    ) -> u32;
    pub(super) fn gix_config_told_missing(
        told: *mut Told,
        path: *const u8,
        path_len: usize,
    ) -> u32;
    pub(super) fn gix_config_told_fault(
        told: *mut Told,
        path: *const u8,
        path_len: usize,
        opens: bool,
    ) -> u32;
    pub(super) fn gix_config_told_variable(
        told: *mut Told,
        name: *const u8,
        name_len: usize,
        value: *const u8,
        value_len: usize,
    ) -> u32;
    pub(super) fn gix_config_told_no_variable(
        told: *mut Told,
        name: *const u8,
        name_len: usize,
    ) -> u32;
    pub(super) fn gix_config_told_close(told: *mut Told);
    pub(super) fn gix_config_text_value(
        text: *const u8,
        text_len: usize,
        key: *const Key<'_>,
        value: *mut Bytes,
        place: *mut Place,
    ) -> u32;
    pub(super) fn gix_config_text_values(
        text: *const u8,
        text_len: usize,
        key: *const Key<'_>,
        list: *mut List,
        place: *mut Place,
    ) -> u32;
    pub(super) fn gix_config_told_place(
        told: *const Told,
        path: *const u8,
        path_len: usize,
        place: *mut Place,
    ) -> u32;
    pub(super) fn gix_config_version(text: *mut Text<'static>);
    pub(super) fn gix_config_view_file(file: *const File, view: *mut View) -> u32;
    pub(super) fn gix_config_view_free(view: *mut View);
}
