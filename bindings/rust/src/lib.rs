//! git's configuration files: read, looked up, edited and written, by the names of the crate gix-config.
//!
//! The work is done by a library whose calls are proved (docs/c.md); this crate has its types. Where the library is out of memory and
//! gix-config's signature has no such error, [`std::alloc::handle_alloc_error`] is called, as Rust's own collections do.
//!
//! ```
//! let mut file = gix_config::File::try_from("[core]\n\teditor = vi ; was ed\n")?;
//! assert_eq!(file.string("core.editor"), Some("vi".into()));
//! file.set_raw_value("core.editor", "emacs")?;
//! assert_eq!(file.to_string(), "[core]\n\teditor = emacs ; was ed\n");
//! # Ok::<(), Box<dyn std::error::Error>>(())
//! ```
#![deny(unsafe_code)]
#![warn(missing_docs)]

pub mod file;
mod filter;
pub mod format;
mod ids;
pub mod includes;
pub mod init;
pub mod integer;
mod key;
mod loads;
pub mod lookup;
mod meta;
mod multi_value_mut;
pub mod parse;
pub mod path;
pub mod section;
pub mod source;
mod sys;
mod text;
mod typed;
pub mod value;
mod value_mut;
mod view;
mod with_sections;

pub use file::File;
pub use integer::Integer;
pub use key::{AsKey, KeyRef};
pub use path::Path;
pub use source::{Source, Trust};
pub use text::{AsBStr, AsBStrOpt};
pub use value::Boolean;
