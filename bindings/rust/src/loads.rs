//! Files that are made of texts, and loaded.
use std::collections::BTreeSet;
use std::env;
use std::fs;
use std::io::{self, Read};
use std::path::{Path, PathBuf};

use crate::file::File;
use crate::includes;
use crate::init::{self, from_env, from_git_dir, from_paths, Options};
use crate::meta::Metadata;
use crate::parse;
use crate::path::interpolate;
use crate::source::{Source, Trust};
use crate::sys::{self, Wanted};
use crate::text::AsBStr;

/// The user's home directory.
fn home() -> Option<PathBuf> {
    env::var_os("HOME").map(PathBuf::from)
}

/// The places of the machine, with the user's home directory.
fn places(home: Option<&Path>) -> includes::Places<'_> {
    includes::Places {
        installation_config: None,
        system_prefix: Path::new("/"),
        home,
    }
}

/// Files that are made of texts.
impl File {
    /// A file without sections.
    ///
    /// # Panics
    ///
    /// If its path is not UTF-8.
    #[must_use]
    pub fn new(meta: impl Into<Metadata>) -> File {
        let made = File::from_bytes_no_includes(b"", meta, Options::default());
        made.expect("an empty text is one of configuration")
    }

    /// The file of a text that comes from elsewhere, whose includes aren't followed.
    ///
    /// # Errors
    ///
    /// The text can't be read on at some place or is too long, or the path of its file is not UTF-8.
    ///
    /// # Examples
    ///
    /// ```
    /// use gix_config::{file::Metadata, File, Source};
    /// let meta = Metadata::from(Source::User).at("/home/ada/.gitconfig");
    /// let file = File::from_bytes_no_includes(b"[a]\n\tk = 1\n", meta, Default::default())?;
    /// assert_eq!(file.section("a", None)?.meta().source, Source::User);
    /// # Ok::<(), Box<dyn std::error::Error>>(())
    /// ```
    pub fn from_bytes_no_includes(
        input: &[u8],
        meta: impl Into<Metadata>,
        options: Options<'_>,
    ) -> Result<File, init::Error> {
        let meta = meta.into();
        let path = meta.path.as_deref();
        let (path, has_path) = includes::known(path);
        let meta = sys::Metadata {
            has_path,
            path,
            source: meta.source.number(),
            trust: meta.trust.number(),
        };
        match sys::File::parse_as(input, &meta, options.lossy) {
            Ok(sys) => Ok(File { sys }),
            Err((sys::NOT_UTF8, _)) => Err(interpolate::Error::FolderConversion.into()),
            Err(refused) => Err(parse::Error::of(refused, input).into()),
        }
    }

    /// As [`File::from_bytes_no_includes`], of a text that was read.
    ///
    /// # Panics
    ///
    /// If the path of its file is not UTF-8.
    #[must_use]
    pub fn from_parse_events_no_includes(events: parse::Events, meta: impl Into<Metadata>) -> File {
        let made = File::from_bytes_no_includes(&events.text, meta, Options::default());
        made.expect("the text can be read, and the path is UTF-8")
    }

    /// As [`File::from_bytes_no_includes`], with the sections of the files that it includes, if the options follow these.
    ///
    /// # Errors
    ///
    /// Those of [`File::from_bytes_no_includes`]; or an include is refused.
    // (as gix-config has it)
    #[allow(clippy::ptr_arg)]
    pub fn from_bytes_owned(
        input_and_buf: &mut Vec<u8>,
        meta: impl Into<Metadata>,
        options: Options<'_>,
    ) -> Result<File, init::Error> {
        let mut file = File::from_bytes_no_includes(input_and_buf, meta, options)?;
        file.resolve_includes(options)?;
        Ok(file)
    }
}

/// Files that are loaded.
impl File {
    /// The file at a path, whose includes aren't followed. It is trusted if who runs the program owns it.
    ///
    /// # Errors
    ///
    /// The file can't be opened or read, or its text is refused.
    pub fn from_path_no_includes(path: PathBuf, source: Source) -> Result<File, from_paths::Error> {
        let meta = Metadata::try_from_path(&path, source);
        let read = meta.and_then(|meta| Ok((fs::read(&path)?, meta)));
        match read {
            Ok((text, meta)) => Ok(File::from_bytes_no_includes(
                &text,
                meta,
                Options::default(),
            )?),
            Err(source) => Err(from_paths::Error::Io { source, path }),
        }
    }

    /// The files at the paths of metadata, one after the other, each with the sections of the files that it includes, if the options follow
    /// these; `None` if there are none. What has no path, or that of one before, is passed over.
    ///
    /// # Errors
    ///
    /// A file is missing, or can't be opened or read; or a text or an include is refused.
    pub fn from_paths_metadata(
        path_meta: impl IntoIterator<Item = impl Into<Metadata>>,
        options: Options<'_>,
    ) -> Result<Option<File>, from_paths::Error> {
        let mut metas = path_meta.into_iter().map(Into::into);
        File::from_paths_metadata_buf(&mut metas, &mut Vec::new(), true, options)
    }

    /// As [`File::from_paths_metadata`], with a buffer for the texts; files that are missing are passed over unless they are said to be
    /// errors.
    ///
    /// # Errors
    ///
    /// Those of [`File::from_paths_metadata`].
    pub fn from_paths_metadata_buf(
        path_meta: &mut dyn Iterator<Item = Metadata>,
        buf: &mut Vec<u8>,
        err_on_non_existing_paths: bool,
        options: Options<'_>,
    ) -> Result<Option<File>, from_paths::Error> {
        let (mut whole, mut seen): (Option<File>, _) = (None, BTreeSet::new());
        for meta in path_meta {
            let path = match &meta.path {
                Some(path) if seen.insert(path.clone()) => path.clone(),
                _ => continue,
            };
            buf.clear();
            let mut opened = match fs::File::open(&path) {
                Ok(opened) => opened,
                Err(error)
                    if options.ignore_io_errors
                        || (!err_on_non_existing_paths
                            && error.kind() == io::ErrorKind::NotFound) =>
                {
                    continue
                }
                Err(source) => return Err(from_paths::Error::Io { source, path }),
            };
            match opened.read_to_end(buf) {
                Err(_) if options.ignore_io_errors => buf.clear(),
                Err(source) => return Err(from_paths::Error::Io { source, path }),
                Ok(_) => {}
            }
            let file = File::from_bytes_owned(buf, meta, options)?;
            match &mut whole {
                Some(whole) => {
                    whole.append(file).map_err(init::Error::from)?;
                }
                None => whole = Some(file),
            }
        }
        Ok(whole)
    }

    /// The file at a path, with the sections of the files that it includes, each where it is included.
    ///
    /// # Errors
    ///
    /// A file can't be opened or read, or an include is refused.
    pub fn from_path_with_includes<'a>(
        path: impl AsRef<Path>,
        options: impl Into<Options<'a>>,
    ) -> Result<File, from_paths::Error> {
        File::from_files(path.as_ref(), options, &mut includes::Disk)
    }

    /// As [`File::from_path_with_includes`], with files from elsewhere.
    ///
    /// # Errors
    ///
    /// Those of [`File::from_path_with_includes`].
    pub fn from_files<'a>(
        path: &Path,
        options: impl Into<Options<'a>>,
        files: &mut impl includes::Files,
    ) -> Result<File, from_paths::Error> {
        let (mut file, options) = (File::empty(), options.into());
        let real = options.includes.real_git_dir();
        let load = sys::Load {
            path: sys::Text::of(includes::bytes(path)),
            source: Source::Api.number(),
            trust: Trust::Full.number(),
            includes: options.given(real.as_bstr()),
        };
        let mut files = includes::Followed::of(files, 1, &options);
        includes::Host::new(&mut files, &mut includes::Process)
            .load(&mut file.sys, Wanted::File(&load))?;
        Ok(file)
    }

    /// The configuration of the machine and of the user, by the variables of the process (`GIT_CONFIG_NOSYSTEM`, `GIT_CONFIG_SYSTEM`,
    /// `GIT_CONFIG_GLOBAL`, `XDG_CONFIG_HOME`, `HOME`), with what it includes; an empty file if there is none. What was installed with git
    /// is not looked for: [`File::from_globals_of`] takes its path.
    ///
    /// # Errors
    ///
    /// A file can't be opened or read, or an include is refused.
    pub fn from_globals() -> Result<File, from_paths::Error> {
        let home = home();
        File::from_globals_of(
            &places(home.as_deref()),
            &mut includes::Disk,
            &mut includes::Process,
        )
    }

    /// As [`File::from_globals`], with places, files and variables from elsewhere.
    ///
    /// # Errors
    ///
    /// Those of [`File::from_globals`].
    pub fn from_globals_of(
        places: &includes::Places<'_>,
        files: &mut impl includes::Files,
        variables: &mut impl includes::Variables,
    ) -> Result<File, from_paths::Error> {
        let (mut file, given) = (File::empty(), places.given());
        includes::Host::new(files, variables).load(&mut file.sys, Wanted::Globals(&given))?;
        Ok(file)
    }

    /// The file of the entries that variables of the process set (`GIT_CONFIG_COUNT`, `GIT_CONFIG_KEY_0`, `GIT_CONFIG_VALUE_0` and so on),
    /// with what it includes; `None` if they set none.
    ///
    /// # Errors
    ///
    /// The count is no number, a key or a value isn't set or isn't UTF-8, a key has no dot, a name can't be written into a file; or an
    /// include is refused.
    pub fn from_env(options: Options<'_>) -> Result<Option<File>, from_env::Error> {
        File::from_env_of(options, &mut includes::Disk, &mut includes::Process)
    }

    /// As [`File::from_env`], with files and variables from elsewhere.
    ///
    /// # Errors
    ///
    /// Those of [`File::from_env`].
    pub fn from_env_of<'a>(
        options: impl Into<Options<'a>>,
        files: &mut impl includes::Files,
        variables: &mut impl includes::Variables,
    ) -> Result<Option<File>, from_env::Error> {
        let (mut file, options) = (File::empty(), options.into());
        let real = options.includes.real_git_dir();
        let given = options.given(real.as_bstr());
        let mut files = includes::Followed::of(files, 0, &options);
        let host = includes::Host::new(&mut files, variables);
        let is_set = host.load(&mut file.sys, Wanted::Variables(&given))?;
        Ok(is_set.then_some(file))
    }

    /// [`File::from_env`], whose includes know the user's home directory; an empty file if that is `None`.
    ///
    /// # Errors
    ///
    /// Those of [`File::from_env`].
    pub fn from_environment_overrides() -> Result<File, from_env::Error> {
        let home = home();
        let options = includes::Options::follow_without_conditional(home.as_deref());
        Ok(File::from_env(options.into())?.unwrap_or_default())
    }

    /// The configuration of a repository by its directory, as `.git`: that of [`File::from_globals`], its own, that of its worktree if
    /// `extensions.worktreeConfig` is true, and the entries of [`File::from_env`], one after the other.
    ///
    /// # Errors
    ///
    /// Those of the calls named above; and the repository's `config` is missing.
    pub fn from_git_dir(dir: impl AsRef<Path>) -> Result<File, from_git_dir::Error> {
        let home = home();
        File::from_git_dir_of(
            dir.as_ref(),
            &places(home.as_deref()),
            &mut includes::Disk,
            &mut includes::Process,
        )
    }

    /// As [`File::from_git_dir`], with places, files and variables from elsewhere.
    ///
    /// # Errors
    ///
    /// Those of [`File::from_git_dir`].
    pub fn from_git_dir_of(
        dir: &Path,
        places: &includes::Places<'_>,
        files: &mut impl includes::Files,
        variables: &mut impl includes::Variables,
    ) -> Result<File, from_git_dir::Error> {
        let mut file = File::empty();
        let real = fs::canonicalize(dir).unwrap_or_else(|_| dir.to_owned());
        let repository = sys::Repository {
            git_folder: sys::Text::of(includes::bytes(dir)),
            real_git_folder: sys::Text::of(includes::bytes(&real)),
            places: places.given(),
        };
        includes::Host::new(files, variables)
            .load(&mut file.sys, Wanted::Repository(&repository))?;
        Ok(file)
    }

    /// Reads the files that the sections include, from the disk, and puts the sections of each where it is included.
    ///
    /// # Errors
    ///
    /// A file can't be opened or read, or an include is refused. The file is then as it was.
    pub fn resolve_includes(&mut self, options: Options<'_>) -> Result<(), includes::Error> {
        self.resolve_includes_of(options, &mut includes::Disk)
    }

    /// As [`File::resolve_includes`], with files from elsewhere.
    ///
    /// # Errors
    ///
    /// Those of [`File::resolve_includes`].
    pub fn resolve_includes_of<'a>(
        &mut self,
        options: impl Into<Options<'a>>,
        files: &mut impl includes::Files,
    ) -> Result<(), includes::Error> {
        let options = options.into();
        if !options.includes.is_followed() {
            return Ok(());
        }
        let real = options.includes.real_git_dir();
        let given = options.given(real.as_bstr());
        let mut files = includes::Followed::of(files, 0, &options);
        includes::Host::new(&mut files, &mut includes::Process)
            .load(&mut self.sys, Wanted::Included(&given))?;
        Ok(())
    }
}
