//! Texts that are formatted.
use bstr::BString;

use crate::{parse, sys};

/// What stands before a name, or before a comment.
#[derive(Clone, Copy, Debug, PartialEq, Eq)]
pub enum Indent {
    /// So many tabs.
    Tabs(usize),
    /// So many spaces.
    Spaces(usize),
}

/// What lines end with.
#[derive(Clone, Copy, Debug, PartialEq, Eq)]
pub enum Newline {
    /// What the first line of the text ends with.
    Detect,
    /// LF.
    Lf,
    /// CR and LF.
    CrLf,
}

/// How a text is formatted.
#[derive(Clone, Copy, Debug, PartialEq, Eq)]
pub struct Options {
    /// What stands before a comment on a line of its own before the first header; the whitespace that is there for `None`.
    pub root_comment_indent: Option<Indent>,
    /// What stands before a name or a comment that begins a line after a header.
    pub key_value_indent: Indent,
    /// Whether there is a space on either side of `=`.
    pub spaces_around_separator: bool,
    /// What lines end with.
    pub newline: Newline,
    /// Whether a text that isn't empty ends with one line ending.
    pub ensure_trailing_newline: bool,
    /// How many blank lines stay before the first line that isn't blank; all for `None`.
    pub max_leading_blank_lines: Option<usize>,
    /// How many blank lines stay together after that line; all for `None`.
    pub max_consecutive_blank_lines: Option<usize>,
}

impl Default for Options {
    fn default() -> Self {
        Options {
            root_comment_indent: Some(Indent::Spaces(0)),
            key_value_indent: Indent::Tabs(1),
            spaces_around_separator: true,
            newline: Newline::Detect,
            ensure_trailing_newline: true,
            max_leading_blank_lines: None,
            max_consecutive_blank_lines: None,
        }
    }
}

/// Whether an indent is of tabs, and how many.
fn given(indent: Indent) -> (bool, usize) {
    match indent {
        Indent::Tabs(count) => (true, count),
        Indent::Spaces(count) => (false, count),
    }
}

/// The text formatted, with the same sections, entries and comments.
///
/// # Errors
///
/// The text can't be read on at some place.
///
/// # Examples
///
/// ```
/// use gix_config::format::{normalize, Options};
/// assert_eq!(normalize(b"[a]\nk=1;c", Options::default())?, "[a]\n\tk = 1 ;c\n");
/// # Ok::<(), gix_config::parse::Error>(())
/// ```
pub fn normalize(input: &[u8], options: Options) -> Result<BString, parse::Error> {
    let root = options.root_comment_indent.map(given);
    let (has_root_tabs, root_indent) = root.unwrap_or_default();
    let (has_tabs, indent) = given(options.key_value_indent);
    let layout = sys::Layout {
        keeps_root_blanks: root.is_none(),
        has_root_tabs,
        root_indent,
        has_tabs,
        indent,
        spaces_around_separator: options.spaces_around_separator,
        detects_newline: options.newline == Newline::Detect,
        is_crlf: options.newline == Newline::CrLf,
        ensures_trailing_newline: options.ensure_trailing_newline,
        limits_leading_blank_lines: options.max_leading_blank_lines.is_some(),
        max_leading_blank_lines: options.max_leading_blank_lines.unwrap_or_default(),
        limits_blank_lines: options.max_consecutive_blank_lines.is_some(),
        max_blank_lines: options.max_consecutive_blank_lines.unwrap_or_default(),
    };
    let formatted = sys::normalize(input, &layout);
    let formatted = formatted.map_err(|refused| parse::Error::of(refused, input))?;
    Ok(formatted.copy())
}
