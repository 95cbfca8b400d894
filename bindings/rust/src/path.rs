//! Paths that values write.
use std::ops::Deref;
use std::path::PathBuf;

use bstr::{BStr, BString, ByteSlice};

use crate::includes::path_of;
use crate::value::file_of;

/// What the shorthands of paths stand for.
pub mod interpolate {
    use std::fs;
    use std::path::{Path, PathBuf};

    use bstr::ByteSlice;

    use crate::includes::{known, path_of};
    use crate::sys::{self, number};

    /// What the shorthands of paths stand for. The default knows nothing.
    #[derive(Clone, Copy, Debug, Default)]
    pub struct Context<'a> {
        /// The directory where git is installed, for `%(prefix)/`.
        pub git_install_dir: Option<&'a Path>,
        /// The user's home directory, for `~/`.
        pub home_dir: Option<&'a Path>,
        /// What finds the home directories of other users, for `~user/`; not for the paths of includes.
        pub home_for_user: Option<fn(&str) -> Option<PathBuf>>,
    }

    /// The home directory of a user, as `/etc/passwd` has it.
    #[must_use]
    pub fn home_for_user(name: &str) -> Option<PathBuf> {
        let users = fs::read("/etc/passwd").ok()?;
        let mut users = users
            .lines()
            .map(|it| it.split_str(":").collect::<Vec<_>>());
        let user = users.find(|it| it[0] == name.as_bytes())?;
        user.get(5).map(|home| path_of(home))
    }

    impl<'a> Context<'a> {
        /// The same as the library takes it.
        pub(crate) fn given(&self) -> sys::Folders<'a> {
            let (installation, has_installation) = known(self.git_install_dir);
            let (home, has_home) = known(self.home_dir);
            sys::Folders {
                has_installation,
                installation,
                has_home,
                home,
            }
        }
    }

    /// Why a path stands for none.
    #[derive(Clone, Copy, Debug, PartialEq, Eq, thiserror::Error)]
    pub enum Error {
        /// It is empty, or needs a directory that is not known, as those of other users.
        #[error("{}", sys::words(number::MISSING_FOLDER))]
        Missing,
        /// It is not UTF-8.
        #[error("{}", sys::words(number::PATH_NOT_UTF8))]
        Utf8Conversion,
        /// The name of a user in it is not UTF-8.
        #[error("{}", sys::words(number::USER_NOT_UTF8))]
        UsernameConversion,
        /// A directory that is known, or the path of a file, is not UTF-8.
        #[error("{}", sys::words(sys::NOT_UTF8))]
        FolderConversion,
    }

    impl Error {
        /// The number of the error in docs/refusals.md; 101 for a directory that is not UTF-8.
        #[must_use]
        pub fn number(&self) -> u32 {
            match self {
                Error::Missing => number::MISSING_FOLDER,
                Error::Utf8Conversion => number::PATH_NOT_UTF8,
                Error::UsernameConversion => number::USER_NOT_UTF8,
                Error::FolderConversion => sys::NOT_UTF8,
            }
        }

        pub(crate) fn of(number: u32) -> Self {
            match number {
                number::MISSING_FOLDER => Error::Missing,
                number::PATH_NOT_UTF8 => Error::Utf8Conversion,
                number::USER_NOT_UTF8 => Error::UsernameConversion,
                sys::NOT_UTF8 => Error::FolderConversion,
                number => sys::unforeseen(number),
            }
        }
    }
}

/// A value as a path: its bytes as they are written. [`Path::interpolate`] replaces the shorthand at its front.
#[derive(Clone, Debug, PartialEq, Eq, PartialOrd, Ord, Hash)]
pub struct Path {
    /// The bytes.
    pub value: BString,
}

impl Path {
    /// The path with the shorthand at its front replaced: `%(prefix)/` by the directory where git is installed, `~/` by the user's home
    /// directory, `~user/` by that of another user.
    ///
    /// # Errors
    ///
    /// The path is empty, needs a directory that is not known, as those of other users, or is not UTF-8; or a directory is not.
    ///
    /// # Examples
    ///
    /// ```
    /// use gix_config::path::interpolate::Context;
    /// use std::path::Path;
    /// let file = gix_config::File::try_from("[core]\n\thooksPath = ~/hooks\n")?;
    /// let path = file.path("core.hooksPath").expect("a path");
    /// assert_eq!(path.to_string(), "~/hooks");
    /// let context = Context { home_dir: Some(Path::new("/home/ada")), ..Context::default() };
    /// assert_eq!(path.interpolate(context)?, Path::new("/home/ada/hooks"));
    /// # Ok::<(), Box<dyn std::error::Error>>(())
    /// ```
    pub fn interpolate(
        self,
        context: interpolate::Context<'_>,
    ) -> Result<PathBuf, interpolate::Error> {
        if let (Some(found), Some(behind)) = (context.home_for_user, self.strip_prefix(b"~")) {
            let end = behind.find_byte(b'/').unwrap_or(behind.len());
            if end > 0 {
                let user = behind[..end].to_str();
                let user = user.map_err(|_| interpolate::Error::UsernameConversion)?;
                let home = found(user).ok_or(interpolate::Error::Missing)?;
                let below = path_of(behind[end..].strip_prefix(b"/").unwrap_or_default());
                return Ok(home.join(below));
            }
        }
        let (file, key) = file_of(self.value.as_bstr());
        let path = file.sys.path(&key, &context.given());
        Ok(path_of(path.map_err(interpolate::Error::of)?.bytes()))
    }
}

impl From<BString> for Path {
    fn from(value: BString) -> Self {
        Path { value }
    }
}

impl Deref for Path {
    type Target = BStr;

    fn deref(&self) -> &BStr {
        self.value.as_bstr()
    }
}
