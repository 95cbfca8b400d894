//! Where configuration comes from.
use std::env;
use std::ffi::OsString;
use std::fs;
use std::io;
use std::os::unix::ffi::OsStringExt;
use std::os::unix::fs::MetadataExt;
use std::path::{Path, PathBuf};

use bstr::BString;

use crate::value::Boolean;

/// The place that configuration is read from; of two the later one counts.
#[derive(Clone, Copy, Debug, PartialEq, Eq, PartialOrd, Ord, Hash)]
pub enum Source {
    /// The configuration that was installed with git.
    GitInstallation = 1,
    /// The configuration of the whole machine.
    System = 2,
    /// The user's configuration in `git/config` of the directory for configuration.
    Git = 4,
    /// The user's configuration in `.gitconfig` of the home directory.
    User = 8,
    /// The repository's configuration.
    Local = 16,
    /// The configuration of one worktree.
    Worktree = 32,
    /// Variables of the environment.
    Env = 64,
    /// Options of the command line.
    Cli = 128,
    /// The calling program: also a text that it parses.
    Api = 256,
    /// Variables of the environment that override everything else.
    EnvOverride = 512,
}

/// Places that configuration is read from, by what they are for; of two the later one counts.
#[derive(Clone, Copy, Debug, PartialEq, Eq, PartialOrd, Ord, Hash)]
pub enum Kind {
    /// What was installed with git.
    GitInstallation,
    /// The whole machine.
    System,
    /// The user.
    Global,
    /// A repository and its worktrees.
    Repository,
    /// What counts before all files.
    Override,
}

impl Kind {
    /// The places of the kind that files or programs stand for, in order.
    #[must_use]
    pub fn sources(self) -> &'static [Source] {
        match self {
            Kind::GitInstallation => &[Source::GitInstallation],
            Kind::System => &[Source::System],
            Kind::Global => &[Source::Git, Source::User],
            Kind::Repository => &[Source::Local, Source::Worktree],
            Kind::Override => &[Source::Env, Source::Cli, Source::Api],
        }
    }
}

impl Source {
    /// What the place is for.
    #[must_use]
    pub const fn kind(self) -> Kind {
        match self {
            Source::GitInstallation => Kind::GitInstallation,
            Source::System => Kind::System,
            Source::Git | Source::User => Kind::Global,
            Source::Local | Source::Worktree => Kind::Repository,
            Source::Env | Source::Cli | Source::Api | Source::EnvOverride => Kind::Override,
        }
    }

    /// Where the file of the place is, by variables of the environment: that of a repository or a worktree in its directory. `None` for a place
    /// without a file, and for what was installed with git, which isn't looked for.
    ///
    /// # Examples
    ///
    /// ```
    /// use gix_config::Source;
    /// let mut env = |name: &str| (name == "HOME").then(|| "/home/ada".into());
    /// let user = Source::User.storage_location(&mut env).expect("a path");
    /// assert_eq!(user, std::path::Path::new("/home/ada/.gitconfig"));
    /// ```
    pub fn storage_location(
        self,
        env_var: &mut dyn FnMut(&str) -> Option<OsString>,
    ) -> Option<PathBuf> {
        match self {
            Source::System => {
                let no_system = env_var("GIT_CONFIG_NOSYSTEM").map(OsString::into_vec);
                let no_system = no_system.map(|it| Boolean::try_from(BString::from(it)));
                if matches!(no_system, Some(Ok(Boolean(true)))) {
                    return None;
                }
                let named = env_var("GIT_CONFIG_SYSTEM").map(PathBuf::from);
                Some(named.unwrap_or_else(|| "/etc/gitconfig".into()))
            }
            Source::Git | Source::User => {
                if let Some(named) = env_var("GIT_CONFIG_GLOBAL") {
                    return Some(named.into());
                }
                let mut home = |below: &str| Some(PathBuf::from(env_var("HOME")?).join(below));
                if self == Source::User {
                    return home(".gitconfig");
                }
                let default = home(".config/git/config");
                let directory = env_var("XDG_CONFIG_HOME").filter(|it| !it.is_empty());
                let named = directory.map(|it| PathBuf::from(it).join("git/config"));
                named.or(default)
            }
            Source::Local => Some("config".into()),
            Source::Worktree => Some("config.worktree".into()),
            Source::GitInstallation
            | Source::Env
            | Source::Cli
            | Source::Api
            | Source::EnvOverride => None,
        }
    }

    const ALL: [Source; 10] = [
        Source::GitInstallation,
        Source::System,
        Source::Git,
        Source::User,
        Source::Local,
        Source::Worktree,
        Source::Env,
        Source::Cli,
        Source::Api,
        Source::EnvOverride,
    ];

    /// The number of the library. Those of several add up.
    pub(crate) const fn number(self) -> u32 {
        self as u32
    }

    /// The one that has the number.
    pub(crate) fn of(number: u32) -> Source {
        let found = Source::ALL.iter().find(|it| it.number() == number);
        *found.expect("the library has these numbers alone")
    }
}

/// How far a place is trusted.
#[derive(Clone, Copy, Debug, PartialEq, Eq, PartialOrd, Ord, Hash)]
pub enum Trust {
    /// Someone else owns the file.
    Reduced = 0,
    /// Who runs the program owns the file, or it comes from none.
    Full = 1,
}

impl Trust {
    /// That of a file: full if who runs the program owns it, or, if that is root by `sudo`, who called it.
    ///
    /// # Errors
    ///
    /// Nobody knows who owns it: there is none, for example.
    pub fn from_path_ownership(path: impl AsRef<Path>) -> io::Result<Trust> {
        let owner = fs::symlink_metadata(path)?.uid();
        let own = fs::metadata("/proc/self")?.uid();
        let caller = || env::var("SUDO_UID").ok()?.parse().ok();
        Ok(if owner == own || (own == 0 && caller() == Some(owner)) {
            Trust::Full
        } else {
            Trust::Reduced
        })
    }

    /// The number of the library.
    pub(crate) const fn number(self) -> u32 {
        self as u32
    }

    /// The one that has the number.
    pub(crate) const fn of(number: u32) -> Trust {
        if number == Trust::Full.number() {
            Trust::Full
        } else {
            Trust::Reduced
        }
    }
}
