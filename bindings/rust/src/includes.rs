//! Which includes are followed, and where files come from.
use std::fs;
use std::io;
use std::path::{Path, PathBuf};

use bstr::{BStr, BString, ByteSlice};

use crate::parse::section::{header, value_name};
use crate::parse::span;
use crate::sys::{self, number, Wanted};
use crate::{init, parse, path};

/// What the conditions of `includeIf` are about.
pub mod conditional {
    use bstr::BStr;
    use std::path::Path;

    /// What the conditions of `includeIf` are about. The default has nothing, and no condition on it holds.
    #[derive(Clone, Copy, Debug, Default)]
    pub struct Context<'a> {
        /// The directory of the repository, for `gitdir:` and `gitdir/i:`.
        pub git_dir: Option<&'a Path>,
        /// The full name of the branch, such as `refs/heads/main`, for `onbranch:`.
        pub branch_name: Option<&'a BStr>,
    }
}

pub use crate::path::interpolate;

/// How includes are followed: not at all, as the default has it, or ten files deep; deeper ones are then refused, and so is a path relative
/// to the directory of a file that has no path.
#[derive(Clone, Copy, Debug, Default)]
pub struct Options<'a> {
    follow: bool,
    interpolate: interpolate::Context<'a>,
    conditional: conditional::Context<'a>,
    strict: bool,
}

impl<'a> Options<'a> {
    /// No include is followed.
    #[must_use]
    pub fn no_follow() -> Self {
        Options::default()
    }

    /// Includes are followed; one whose path has a shorthand that stands for nothing is left out.
    #[must_use]
    pub fn follow(
        interpolate: interpolate::Context<'a>,
        conditional: conditional::Context<'a>,
    ) -> Self {
        Options {
            follow: true,
            interpolate,
            conditional,
            strict: false,
        }
    }

    /// [`Options::follow`] with the home directory, and nothing that a condition could be about.
    #[must_use]
    pub fn follow_without_conditional(home_dir: Option<&'a Path>) -> Self {
        let interpolate = interpolate::Context {
            git_install_dir: None,
            home_dir,
            home_for_user: Some(interpolate::home_for_user),
        };
        Options::follow(interpolate, conditional::Context::default())
    }

    /// The same, but an include whose path has a shorthand that stands for nothing is refused, and a condition on the git directory if there
    /// is none.
    #[must_use]
    pub fn strict(mut self) -> Self {
        self.strict = true;
        self
    }

    /// The same with other directories for the shorthands of paths.
    #[must_use]
    pub fn interpolate_with(mut self, context: interpolate::Context<'a>) -> Self {
        self.interpolate = context;
        self
    }

    pub(crate) fn is_followed(&self) -> bool {
        self.follow
    }

    /// The git directory with its symbolic links resolved, or as it is given where that fails.
    pub(crate) fn real_git_dir(&self) -> BString {
        self.conditional
            .git_dir
            .map_or_else(BString::default, |git_dir| {
                let real = fs::canonicalize(git_dir).unwrap_or_else(|_| git_dir.to_owned());
                bytes(&real).into()
            })
    }

    /// The same as the library takes it.
    fn given(&self, real_git_folder: &'a BStr, lossy: bool) -> sys::Includes<'a> {
        let (git_folder, has_git_folder) = known(self.conditional.git_dir);
        let branch = self.conditional.branch_name;
        sys::Includes {
            strict: self.strict,
            lossy,
            folders: self.interpolate.given(),
            has_git_folder,
            git_folder,
            real_git_folder: sys::Text::of(real_git_folder),
            has_branch: branch.is_some(),
            branch: sys::Text::of(branch.unwrap_or_default()),
        }
    }
}

impl<'a> init::Options<'a> {
    /// The same as the library takes it.
    pub(crate) fn given(&self, real_git_folder: &'a BStr) -> sys::Includes<'a> {
        self.includes.given(real_git_folder, self.lossy)
    }
}

/// The bytes of a path.
pub(crate) fn bytes(path: &Path) -> &[u8] {
    std::os::unix::ffi::OsStrExt::as_bytes(path.as_os_str())
}

/// A path as the library takes it, and whether it is known.
pub(crate) fn known(path: Option<&Path>) -> (sys::Text<'_>, bool) {
    (sys::Text::of(path.map_or(b"", bytes)), path.is_some())
}

/// Why an include is refused.
#[derive(Debug, thiserror::Error)]
pub enum Error {
    /// A file that is included can't be read.
    #[error("{}: '{}'", sys::words(number::INCLUDE_NOT_READ), path.display())]
    CopyBuffer {
        /// Its path.
        path: PathBuf,
        /// Why it can't.
        source: io::Error,
    },
    /// A file that is included can't be opened.
    #[error("{}: '{}'", sys::words(number::INCLUDE_NOT_OPENED), path.display())]
    Io {
        /// Its path.
        path: PathBuf,
        /// Why it can't.
        source: io::Error,
    },
    /// The text of a file can't be read on at some place: of one that is included, or one that is loaded.
    #[error("'{}': {source}", path.display())]
    Parse {
        /// Its path.
        path: PathBuf,
        /// The place, and the reason.
        source: parse::Error,
    },
    /// The file would be too long.
    #[error(transparent)]
    Span(#[from] span::Error),
    /// An include's path stands for none.
    #[error(transparent)]
    Interpolate(#[from] path::interpolate::Error),
    /// Includes are deeper than they are followed.
    #[error("{}: {max_depth}", sys::words(number::INCLUDE_DEPTH_EXCEEDED))]
    IncludeDepthExceeded {
        /// How many files deep includes are followed.
        max_depth: u8,
    },
    /// An include's path is relative, and the file that names it has no path.
    #[error("{}", sys::words(number::MISSING_CONFIG_PATH))]
    MissingConfigPath,
    /// A condition is about the git directory, and there is none.
    #[error("{}", sys::words(number::MISSING_GIT_DIR))]
    MissingGitDir,
    /// The git directory can't be resolved.
    #[error("{}", sys::words(number::REALPATH))]
    Realpath,
}

impl Error {
    /// The number of the error in docs/refusals.md.
    #[must_use]
    pub fn number(&self) -> u32 {
        match self {
            Error::CopyBuffer { .. } => number::INCLUDE_NOT_READ,
            Error::Io { .. } => number::INCLUDE_NOT_OPENED,
            Error::Parse { source, .. } => source.number(),
            Error::Span(error) => error.number(),
            Error::Interpolate(error) => error.number(),
            Error::IncludeDepthExceeded { .. } => number::INCLUDE_DEPTH_EXCEEDED,
            Error::MissingConfigPath => number::MISSING_CONFIG_PATH,
            Error::MissingGitDir => number::MISSING_GIT_DIR,
            Error::Realpath => number::REALPATH,
        }
    }
}

/// Why a load is refused.
pub(crate) enum LoadError {
    /// For an include, or the text of a file.
    Include(Error),
    /// A file that is loaded is missing, or can't be opened or read.
    File { path: PathBuf, source: io::Error },
    /// A variable that sets an entry, with its name and what it is set to.
    Variable {
        number: u32,
        name: String,
        value: String,
    },
    /// A section can't be made of the names of a key that a variable sets.
    Header(header::Error),
    /// The name of such a key can't be a value's.
    ValueName(value_name::Error),
}

impl LoadError {
    /// Ends the program by an error that the call doesn't answer.
    pub(crate) fn unforeseen(&self) -> ! {
        sys::unforeseen(match self {
            LoadError::Include(error) => error.number(),
            LoadError::File { .. } => number::FILE_NOT_READ,
            LoadError::Variable { number, .. } => *number,
            LoadError::Header(error) => error.number(),
            LoadError::ValueName(error) => error.number(),
        })
    }
}

impl From<LoadError> for Error {
    fn from(error: LoadError) -> Self {
        match error {
            LoadError::Include(error) => error,
            other => other.unforeseen(),
        }
    }
}

/// What is at a path.
#[derive(Debug)]
pub enum Found {
    /// No file: an include of it is left out.
    Missing,
    /// A file of these bytes.
    Text(Vec<u8>),
    /// A file that can't be opened.
    Unopened(io::Error),
    /// A file that can be opened but not read.
    Unread(io::Error),
}

/// Where files come from.
pub trait Files {
    /// What is at a path.
    fn find(&mut self, path: &Path) -> Found;
}

/// The files of the disk.
#[derive(Clone, Copy, Debug, Default)]
pub struct Disk;

impl Files for Disk {
    fn find(&mut self, path: &Path) -> Found {
        if !path.is_file() {
            return Found::Missing;
        }
        let mut file = match fs::File::open(path) {
            Ok(file) => file,
            Err(error) => return Found::Unopened(error),
        };
        let mut text = Vec::new();
        match io::Read::read_to_end(&mut file, &mut text) {
            Ok(_) => Found::Text(text),
            Err(error) => Found::Unread(error),
        }
    }
}

/// Where variables of the environment come from.
pub trait Variables {
    /// What a variable is set to, if it is set.
    fn get(&mut self, name: &str) -> Option<Vec<u8>>;
}

/// The variables of the process.
#[derive(Clone, Copy, Debug, Default)]
pub struct Process;

impl Variables for Process {
    fn get(&mut self, name: &str) -> Option<Vec<u8>> {
        std::env::var_os(name).map(std::os::unix::ffi::OsStringExt::into_vec)
    }
}

/// What a program has of files: of those that are included none, if they aren't followed.
pub(crate) struct Followed<'a> {
    files: &'a mut dyn Files,
    /// How many files are found whatever they are.
    first: usize,
    is_followed: bool,
    ignore_io_errors: bool,
}

impl<'a> Followed<'a> {
    /// So many files, and those that they include if the options follow these.
    pub(crate) fn of(files: &'a mut dyn Files, first: usize, options: &init::Options<'_>) -> Self {
        Followed {
            files,
            first,
            is_followed: options.includes.is_followed(),
            ignore_io_errors: options.ignore_io_errors,
        }
    }
}

impl Files for Followed<'_> {
    fn find(&mut self, path: &Path) -> Found {
        if self.first == 0 && !self.is_followed {
            return Found::Missing;
        }
        self.first = self.first.saturating_sub(1);
        match self.files.find(path) {
            Found::Unopened(_) if self.ignore_io_errors => Found::Missing,
            Found::Unread(_) if self.ignore_io_errors => Found::Text(Vec::new()),
            found => found,
        }
    }
}

/// The places of configuration that a program knows.
#[derive(Clone, Copy, Debug)]
pub struct Places<'a> {
    /// The path of the configuration that was installed with git, if there is some.
    pub installation_config: Option<&'a Path>,
    /// The directory that `etc/gitconfig` is in, the configuration of the whole machine.
    pub system_prefix: &'a Path,
    /// The user's home directory, for `~/` in the paths of includes.
    pub home: Option<&'a Path>,
}

impl<'a> Places<'a> {
    /// The same as the library takes it.
    pub(crate) fn given(&self) -> sys::Places<'a> {
        let (installation, has_installation) = known(self.installation_config);
        let (home, has_home) = known(self.home);
        sys::Places {
            has_installation,
            installation,
            system_prefix: sys::Text::of(bytes(self.system_prefix)),
            has_home,
            home,
        }
    }
}

/// What a load asks for besides what it is given.
pub(crate) struct Host<'a> {
    files: &'a mut dyn Files,
    variables: &'a mut dyn Variables,
    told: sys::Told,
    /// Why the file that was told last can't be opened or read, if it was said to be so.
    fault: Option<io::Error>,
}

impl<'a> Host<'a> {
    pub(crate) fn new(files: &'a mut dyn Files, variables: &'a mut dyn Variables) -> Self {
        Host {
            files,
            variables,
            told: sys::Told::new(),
            fault: None,
        }
    }

    /// Loads again and again, each time with one file or variable more, until none is asked for. Returns whether there is what was wanted.
    pub(crate) fn load(
        mut self,
        file: &mut sys::File,
        wanted: Wanted<'_>,
    ) -> Result<bool, LoadError> {
        loop {
            let (answer, asked) = file.load(&mut self.told, wanted);
            let about = asked.bytes();
            let told = match answer {
                Ok(()) => return Ok(true),
                Err(sys::NOTHING_THERE) => return Ok(false),
                Err(sys::NOT_TOLD) => self.tell_file(about),
                Err(sys::VARIABLE_NOT_TOLD) => {
                    let value = self.variables.get(&about.to_str_lossy());
                    self.told.tell_variable(about, value.as_deref())
                }
                Err(number) => Err(number),
            };
            if let Err(number) = told {
                return Err(self.refused(number, about));
            }
        }
    }

    fn tell_file(&mut self, path: &[u8]) -> Result<(), u32> {
        let found = self.files.find(&path_of(path));
        let told = self.told.tell(path, &found);
        self.fault = match found {
            Found::Unopened(error) | Found::Unread(error) => Some(error),
            Found::Missing | Found::Text(_) => None,
        };
        told
    }

    /// What an error comes to, with what the call named.
    fn refused(mut self, number: u32, about: &[u8]) -> LoadError {
        let path = path_of(about);
        let missing = || io::Error::from(io::ErrorKind::NotFound);
        let error = match number {
            number::UNEXPECTED_TOKEN | number::INPUT_TOO_LARGE => match self.told.place(about) {
                Some(refused) => {
                    let text = match self.files.find(&path) {
                        Found::Text(text) => text,
                        _ => Vec::new(),
                    };
                    let source = parse::Error::of(refused, &text);
                    Error::Parse { path, source }
                }
                None => sys::unforeseen(number),
            },
            span::Error::NUMBER => Error::Span(span::Error),
            number::INVALID_SECTION_NAME | number::INVALID_SUBSECTION => {
                return LoadError::Header(header::Error::of(number))
            }
            value_name::Error::NUMBER => return LoadError::ValueName(value_name::Error),
            number::MISSING_FOLDER..=number::USER_NOT_UTF8 | sys::NOT_UTF8 => {
                Error::Interpolate(path::interpolate::Error::of(number))
            }
            number::INCLUDE_DEPTH_EXCEEDED => Error::IncludeDepthExceeded { max_depth: 10 },
            number::MISSING_CONFIG_PATH => Error::MissingConfigPath,
            number::MISSING_GIT_DIR => Error::MissingGitDir,
            number::REALPATH => Error::Realpath,
            number::INCLUDE_NOT_OPENED => Error::Io {
                path,
                source: self.fault.unwrap_or_else(missing),
            },
            number::INCLUDE_NOT_READ => Error::CopyBuffer {
                path,
                source: self.fault.unwrap_or_else(missing),
            },
            number::FILE_NOT_READ => {
                let source = self.fault.unwrap_or_else(missing);
                return LoadError::File { path, source };
            }
            number::ILLFORMED_VARIABLE..=number::INVALID_VALUE_ID => {
                let name = about.to_str_lossy().into_owned();
                let value = self.variables.get(&name).unwrap_or_default();
                let value = value.to_str_lossy().into_owned();
                return LoadError::Variable {
                    number,
                    name,
                    value,
                };
            }
            number => sys::unforeseen(number),
        };
        LoadError::Include(error)
    }
}

/// The path of bytes.
pub(crate) fn path_of(bytes: &[u8]) -> PathBuf {
    bytes.to_path_lossy().into_owned()
}
