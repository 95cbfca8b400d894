//! The calls, as they are meant to be called.
use bstr::{BStr, BString, ByteSlice};
use gix_config::file::init::{self, from_env, from_git_dir, from_paths};
use gix_config::file::Metadata;
use gix_config::includes::{Error, Files, Found, Options, Places, Variables};
use gix_config::parse::section::header;
use gix_config::path::interpolate::Context;
use gix_config::section::{Section, SectionRef};
use gix_config::source::Kind;
use gix_config::{lookup, AsKey, Boolean, File, KeyRef, Source, Trust};
use std::io;
use std::os::unix::ffi::OsStrExt;
use std::path::Path;

const TEXT: &str = "# mine\n[core]\n\teditor = vi ; was ed\n\tbare\n\tn = 2k\n[remote \"or.igin\"]\n\turl = \"a b\" c\n\turl = d\n";

fn file() -> File {
    File::try_from(TEXT).expect("a text of configuration")
}

fn texts(words: &[&str]) -> Vec<BString> {
    words.iter().map(|it| BString::from(*it)).collect()
}

#[test]
fn values() {
    let file = file();
    assert_eq!(file.raw_value("core.editor"), Ok("vi".into()));
    assert_eq!(
        file.string_by("REMOTE", Some("or.igin".into()), "Url"),
        Some("d".into())
    );
    assert_eq!(
        file.strings("remote.or.igin.url"),
        Some(texts(&["a b c", "d"]))
    );
    assert_eq!(
        file.raw_value("nope.x"),
        Err(lookup::existing::Error::SectionMissing)
    );
    assert_eq!(
        file.raw_value("remote.x.url"),
        Err(lookup::existing::Error::SubSectionMissing)
    );
    assert_eq!(
        file.raw_values("core.x"),
        Err(lookup::existing::Error::KeyMissing)
    );
    assert_eq!(file.string("core"), None);
}

#[test]
fn typed_values() {
    let file = file();
    assert_eq!(file.boolean("core.bare"), Ok(Some(true)));
    assert_eq!(file.integer_by("core", None, "n"), Ok(Some(2048)));
    assert_eq!(file.boolean("core.none"), Ok(None));
    let refused = file
        .boolean("core.editor")
        .expect_err("which is no boolean");
    assert_eq!(
        (refused.message, refused.input),
        ("not a boolean", "vi".into())
    );
    assert!(file.integer("core.editor").is_err());
}

#[test]
fn keys() {
    let key = KeyRef::parse_unvalidated("remote.or.igin.url".into());
    let names = KeyRef {
        section_name: "remote",
        subsection_name: Some("or.igin".into()),
        value_name: "url",
    };
    assert_eq!(key, Some(names));
    assert_eq!(
        KeyRef::parse_unvalidated("core.".into()).map(|it| it.subsection_name),
        Some(None)
    );
    assert_eq!(KeyRef::parse_unvalidated("core".into()), None);
    assert_eq!(file().string(names), Some("d".into()));
}

#[test]
fn edits() {
    let mut file = file();
    let copy = file.clone();
    assert_eq!(
        file.set_raw_value_by("core", None, "editor", "emacs"),
        Ok(Some("vi".into()))
    );
    assert_eq!(file.set_raw_value_by("user", None, "name", " x"), Ok(None));
    assert_eq!(
        file.set_raw_value_by("user", None, "na_me", "x")
            .map_err(|it| it.number()),
        Err(6)
    );
    assert_eq!(file.rename_section("user", None, "me", "a\"b"), Ok(()));
    assert_eq!(
        file.rename_section("user", None, "me", None)
            .map_err(|it| it.number()),
        Err(7)
    );
    assert_eq!(
        file.to_string(),
        TEXT.replace("vi", "emacs") + "[me \"a\\\"b\"]\n\tname = \" x\"\n"
    );
    assert_eq!(copy.to_bstring(), TEXT);
    let mut all = File::try_from("[a]\n\tk = 1\n").expect("a text");
    all.append(File::try_from("[b]\n\tk = 2\n").expect("a text"))
        .expect("room");
    let mut written = Vec::new();
    all.write_to(&mut written).expect("room");
    assert_eq!(written.as_bstr(), "[a]\n\tk = 1\n[b]\n\tk = 2\n");
}

#[test]
fn refused_texts() {
    let refused = "[a]\n\tk = v\n= 1\n"
        .parse::<File>()
        .expect_err("no text of configuration");
    assert_eq!((refused.line_number(), refused.column()), (3, 1));
    let bytes: &BStr = b"[a]\r\nk = \xff\r\n".as_bstr();
    assert_eq!(File::try_from(bytes).expect("a text").to_bstring(), bytes);
}

#[test]
fn sections() {
    let file = File::try_from("[A \"x\"]\n\tK = 1\n\tk = 2\n\tbare\n[b]\n[A]\n\tj = \"3\" ; c\n")
        .expect("a text");
    let sections: Vec<_> = file.sections().collect();
    let names: Vec<_> = sections
        .iter()
        .map(|it| (it.header().name(), it.header().subsection_name()))
        .collect();
    assert_eq!(
        names,
        [
            ("A".into(), Some("x".into())),
            ("b".into(), None),
            ("A".into(), None)
        ]
    );
    assert_eq!(sections[0].value("k"), Some("2".into()));
    assert_eq!(sections[0].values("K"), ["1", "2"]);
    assert_eq!(sections[0].value("bare"), None);
    assert_eq!(sections[0].value_implicit("bare"), Some(None));
    assert_eq!(sections[0].value_implicit("none"), None);
    assert!(sections[0].contains_value_name("BARE") && !sections[1].contains_value_name("k"));
    assert_eq!(sections[1].num_values(), 0);
    assert_eq!(sections[2].value_names().collect::<Vec<_>>(), ["j"]);
    assert_eq!(sections[2].value("j"), Some("3".into()));
}

#[test]
fn sections_are_borrowed() {
    let text = "k = 0\n[A \"x\"]\n\tK = 1\n\tbare\n\tk = \"2\" ; c\n[b]\n";
    let mut file = File::try_from(text).expect("a text");
    let (a, b) = {
        let mut sections = file.sections();
        assert_eq!(sections.len(), 2);
        let b = sections.next_back().expect("a section");
        let a = sections.next().expect("a section");
        assert!(sections.next().is_none());
        (a, b)
    };
    assert_eq!(
        (a.header().name(), b.header().name()),
        ("A".into(), "b".into())
    );
    let entries: Vec<_> = a.body().entries().collect();
    let (one, two): (&BStr, &BStr) = ("1".into(), "2".into());
    let named = |name: &'static str, value| (name.into(), value);
    let wanted = [
        named("K", Some(one)),
        named("bare", None),
        named("k", Some(two)),
    ];
    assert_eq!(entries, wanted);
    assert!(a.entries().rev().eq(wanted.into_iter().rev()));
    assert_eq!(b.entries().next(), None);
    let own = |name: &str, value: &str| (name.to_owned(), value.into());
    let wanted = [own("K", "1"), own("bare", ""), own("k", "2")];
    assert_eq!(a.into_iter().len(), 3);
    assert!(a.body().into_iter().rev().eq(wanted.into_iter().rev()));
    assert!(std::ptr::eq(a.meta(), b.meta()));
    assert_eq!(a, file.section("a", "x").expect("a section"));
    assert_ne!(a, b);
    let kept = a.to_owned();
    assert_eq!((kept.num_values(), file.num_values()), (3, 3));

    // (what is seen after an edit is the file as it is then)
    file.set_raw_value("a.x.k", "3").expect("a section");
    let a = file.section("a", "x").expect("a section");
    assert_eq!(a.values("k"), ["1", "3"]);
    assert_eq!(kept.values("K"), ["1", "2"]);
    assert_eq!(kept.header().subsection_name(), Some("x".into()));
    assert_eq!(kept.value_implicit("bare"), Some(None));
    let names: Vec<_> = kept.value_names().collect();
    assert_eq!(names, ["K", "bare", "k"]);
    let mut other = file.clone();
    other
        .append(File::try_from("[c]\n\tn = 1\n").expect("a text"))
        .expect("room");
    assert_eq!((file.sections().len(), other.sections().len()), (2, 3));
    assert_eq!(other.string_filter("c.n", |_| true), Some("1".into()));
}

#[test]
fn lookups_by_closures() {
    // (an entry without `=` that is its section's last leaves the value to the sections before)
    let text = "[a]\n\tk = 1\n[A]\n\tk = 2\n\tk\n[a]\n\tn = 2k\n\tt = x\n[a \"s\"]\n\tk = 4\n";
    let mut file = File::try_from(text).expect("a text");
    file.section_mut("a", None)
        .expect("a section")
        .set_trust(Trust::Reduced);
    let mut asked = 0;
    let by_place = |places: &'static [usize]| {
        let mut place = 0;
        move |_: &Metadata| {
            place += 1;
            places.contains(&(place - 1))
        }
    };
    assert_eq!(
        file.string_filter("a.k", by_place(&[0, 1, 2])),
        Some("1".into())
    );
    assert_eq!(file.string_filter("a.k", by_place(&[1, 2])), None);
    let missing = |key: &str, places| file.raw_value_filter(key, by_place(places));
    let key = Err(lookup::existing::Error::KeyMissing);
    assert_eq!(
        (missing("a.k", &[1]), missing("a.k", &[])),
        (key.clone(), key)
    );
    let values = file.raw_values_filter("a.k", by_place(&[0, 1]));
    assert_eq!(values, Ok(texts(&["1", "2", ""])));
    assert_eq!(
        file.boolean_filter("a.k", by_place(&[0, 1])),
        Ok(Some(true))
    );
    assert_eq!(file.boolean_filter("a.k", by_place(&[0])), Ok(Some(true)));
    assert_eq!(file.boolean_filter("a.k", by_place(&[])), Ok(None));
    assert_eq!(file.integer_filter("a.n", by_place(&[2])), Ok(Some(2048)));
    let refused = file.integer_filter("a.t", by_place(&[2]));
    assert_eq!(refused.map_err(|it| it.input), Err("x".into()));
    let found = file.string_filter("a.s.k", |_| {
        asked += 1;
        true
    });
    assert_eq!((found, asked), (Some("4".into()), 1));
}

#[test]
fn equal_files() {
    let file = file();
    assert_eq!(file, file.clone());
    assert_eq!(
        File::try_from("[a]\nk=1").expect("a text"),
        File::try_from("# c\n[A]\n\tK = \"1\"\n").expect("a text")
    );
    assert_ne!(
        File::try_from("[a]\nk=1").expect("a text"),
        File::try_from("[a]\nk=2").expect("a text")
    );
}

#[test]
fn editors_of_sections() {
    let mut file = file();
    let mut core = file.section_mut("Core", None).expect("a section");
    core.push_with_comment("depth", Some("3".into()), "levels")
        .expect("a name");
    assert_eq!(core.set("editor", "emacs"), Ok(Some("vi".into())));
    assert_eq!(core.set("none", "x"), Ok(None));
    assert_eq!(core.remove("bare"), Some("".into()));
    assert_eq!(core.remove("bare"), None);
    assert_eq!(core.pop(), Some(("none".into(), "x".into())));
    assert_eq!(
        core.push("a b", None)
            .expect_err("no name of a value")
            .number(),
        6
    );
    let mut remote = file
        .section_mut("remote", b"or.igin".as_bstr())
        .expect("a section");
    remote
        .rename("remote", b"up".as_bstr())
        .expect("names of a section");
    assert_eq!(
        file.to_string(),
        "# mine\n[core]\n\teditor = emacs ; was ed\n\tn = 2k\n\tdepth = 3 # levels\n[remote \"up\"]\n\turl = \"a b\" c\n\turl = d\n"
    );
    assert_eq!(
        file.section_mut("remote", None).err(),
        Some(lookup::existing::Error::SubSectionMissing)
    );
    file.new_section("user", None)
        .expect("a name")
        .push("name", Some("x".into()))
        .expect("a name");
    assert_eq!(file.string("user.name"), Some("x".into()));
    let removed = file.remove_section("core", None).expect("a section");
    assert_eq!(removed.num_values(), 3);
    assert!(file.remove_section("core", None).is_none());
}

/// What was found, found again.
fn again(found: &Found) -> Found {
    let fault = |error: &io::Error| io::Error::from_raw_os_error(error.raw_os_error().unwrap_or(5));
    match found {
        Found::Missing => Found::Missing,
        Found::Text(text) => Found::Text(text.clone()),
        Found::Unopened(error) => Found::Unopened(fault(error)),
        Found::Unread(error) => Found::Unread(fault(error)),
    }
}

/// A file that can't be opened: permission is denied.
fn unopened() -> Found {
    Found::Unopened(io::Error::from_raw_os_error(13))
}

/// Files in memory, which count how often they are asked for.
struct Kept(Vec<(&'static str, Found)>, usize);

impl Files for Kept {
    fn find(&mut self, path: &Path) -> Found {
        self.1 += 1;
        let found = self.0.iter().find(|(at, _)| Path::new(at) == path);
        found.map_or(Found::Missing, |(_, found)| again(found))
    }
}

#[test]
fn includes_are_put_where_they_stand() {
    let mut files = Kept(
        vec![
            (
                "/a",
                Found::Text(b"[include]\n\tpath = b\n\tpath = none\n[x]\n\tk = 1\n".to_vec()),
            ),
            ("/b", Found::Text(b"[y]\n\tk = 2\n".to_vec())),
            ("/c", unopened()),
        ],
        0,
    );
    let options = Options::follow_without_conditional(None);
    let file = File::from_files(Path::new("/a"), options, &mut files).expect("files");
    let names: Vec<_> = file
        .sections()
        .map(|it| it.header().name().to_owned())
        .collect();
    assert_eq!(names, texts(&["include", "y", "x"]));
    assert_eq!(files.1, 3);

    let mut other = File::try_from("[include]\n\tpath = /b\n[x]\n").expect("a text");
    let own: Vec<_> = other.section_ids().collect();
    other
        .resolve_includes_of(options, &mut files)
        .expect("files");
    let all: Vec<_> = other.section_ids().collect();
    assert_eq!((all[0], all[2]), (own[0], own[1]));
    assert!(!own.contains(&all[1]));
    assert_eq!(
        other.to_string(),
        "[include]\n\tpath = /b\n[y]\n\tk = 2\n[x]\n"
    );

    files.0[1].1 = unopened();
    let refused = File::from_files(Path::new("/a"), options, &mut files)
        .expect_err("a file that doesn't open");
    assert_eq!(refused.number(), 19);
    match refused {
        from_paths::Error::Init(init::Error::Includes(Error::Io { path, source })) => {
            assert_eq!(path, Path::new("/b"));
            assert_eq!(source.kind(), io::ErrorKind::PermissionDenied);
        }
        other => panic!("{other}"),
    }
}

fn is_send<T: Send>() {}

#[test]
fn what_is_handed_out_may_be_sent() {
    is_send::<Section>();
    is_send::<Metadata>();
    is_send::<KeyRef<'_>>();
    is_send::<Options<'_>>();
    is_send::<Error>();
    is_send::<from_git_dir::Error>();
    is_send::<gix_config::parse::Error>();
}

/// Variables that are kept by a test.
struct Set(Vec<(&'static str, &'static [u8])>);

impl Variables for Set {
    fn get(&mut self, name: &str) -> Option<Vec<u8>> {
        let found = self.0.iter().find(|it| it.0 == name)?;
        Some(found.1.to_vec())
    }
}

fn of_ada() -> Places<'static> {
    Places {
        installation_config: None,
        system_prefix: Path::new("/"),
        home: Some(Path::new("/home/ada")),
    }
}

#[test]
fn machine_user_and_repository() {
    let text = |words: &str| Found::Text(words.as_bytes().to_vec());
    let mut files = Kept(
        vec![
            ("/etc/gitconfig", text("[a]\n\tk = machine\n")),
            (
                "/home/ada/.gitconfig",
                text("[a]\n\tk = ada\n[include]\n\tpath = ~/more\n"),
            ),
            ("/home/ada/more", text("[a]\n\tk = more\n")),
            ("/repo/.git/config", text("[a]\n\tk = repo\n")),
        ],
        0,
    );
    let mut variables = Set(vec![
        ("HOME", b"/home/ada"),
        ("GIT_CONFIG_COUNT", b"1"),
        ("GIT_CONFIG_KEY_0", b"a.k"),
        ("GIT_CONFIG_VALUE_0", b"env"),
    ]);
    let all = |file: &File| file.strings("a.k").unwrap_or_default();
    let globals = File::from_globals_of(&of_ada(), &mut files, &mut variables).expect("files");
    assert_eq!(all(&globals), texts(&["machine", "ada", "more"]));
    let git = Path::new("/repo/.git");
    let whole =
        File::from_git_dir_of(git, &of_ada(), &mut files, &mut variables).expect("a repository");
    // (as in gix-config, the files of the machine and of the user are expanded once more)
    let values = texts(&["machine", "ada", "more", "more", "repo", "env"]);
    assert_eq!(all(&whole), values);
    files.0[3].1 = Found::Missing;
    let refused = File::from_git_dir_of(git, &of_ada(), &mut files, &mut variables)
        .expect_err("no repository");
    assert_eq!(refused.number(), 21);
    match refused {
        from_git_dir::Error::FromPaths(from_paths::Error::Io { path, source }) => {
            assert_eq!(path, Path::new("/repo/.git/config"));
            assert_eq!(source.kind(), io::ErrorKind::NotFound);
        }
        other => panic!("{other}"),
    }
}

#[test]
fn entries_of_variables() {
    let options = Options::follow_without_conditional(None);
    let mut files = Kept(Vec::new(), 0);
    let mut variables = Set(Vec::new());
    let none = File::from_env_of(options, &mut files, &mut variables).expect("no entries");
    assert!(none.is_none());
    variables.0 = vec![("GIT_CONFIG_COUNT", b"1"), ("GIT_CONFIG_KEY_0", b"ab")];
    let refused = File::from_env_of(options, &mut files, &mut variables).expect_err("no value");
    assert_eq!(refused.number(), 26);
    match refused {
        from_env::Error::InvalidValueId { value_id } => assert_eq!(value_id, 0),
        other => panic!("{other}"),
    }
    variables.0.push(("GIT_CONFIG_VALUE_0", b"1"));
    let refused = File::from_env_of(options, &mut files, &mut variables).expect_err("no dot");
    match refused {
        from_env::Error::InvalidKeyValue { key_id, key_val } => {
            assert_eq!((key_id, &*key_val), (0, "ab"));
        }
        other => panic!("{other}"),
    }
    variables.0[1].1 = b"a.\xff";
    let refused = File::from_env_of(options, &mut files, &mut variables).expect_err("no text");
    match refused {
        from_env::Error::IllformedUtf8 { index, kind } => assert_eq!((index, kind), (0, "key")),
        other => panic!("{other}"),
    }
    variables.0[0].1 = b"many";
    let refused = File::from_env_of(options, &mut files, &mut variables).expect_err("no number");
    match refused {
        from_env::Error::InvalidConfigCount { input } => assert_eq!(input, "many"),
        other => panic!("{other}"),
    }
    variables.0[0].1 = b"1";
    variables.0[1].1 = b"a.b";
    let made = File::from_env_of(options, &mut files, &mut variables).expect("an entry");
    assert_eq!(made.and_then(|it| it.string("a.b")), Some("1".into()));
}

#[test]
fn values_that_are_there() {
    let mut file = File::try_from("[a]\n\tk = 1\n\tk = 2 ; two\n[a]\n").expect("a text");
    assert_eq!(file.set_existing_raw_value_by("a", None, "k", "3"), Ok(()));
    let refused = file.set_existing_raw_value_by("a", None, "j", "3");
    assert_eq!(refused.map_err(|it| it.number()), Err(9));
    assert_eq!(all_of(&file), texts(&["1", "3"]));
    let several = file.set_existing_raw_multi_value_by("a", None, "k", ["x", " y", "z"]);
    assert_eq!(several, Ok(()));
    assert_eq!(all_of(&file), texts(&["x", " y"]));
    let mut last = file.section_mut("a", None).expect("a section");
    assert!(last.push_newline().is_ok());
    assert!(file.to_string().ends_with("; two\n[a]\n\n"));
}

fn all_of(file: &File) -> Vec<bstr::BString> {
    file.strings("a.k").unwrap_or_default()
}

#[test]
fn paths() {
    let text: &BStr = b"[p]\n\thome = ~/x\n\tgit = %(prefix)/etc\n\tplain = /y\n\tada = ~ada/x\n\tempty =\n\tlatin = /\xff\n".as_bstr();
    let file = File::try_from(text).expect("a text");
    let directories = Context {
        git_install_dir: Some(Path::new("/git")),
        home_dir: Some(Path::new("/home/ada")),
        ..Context::default()
    };
    let path = file.path("p.home").expect("a path");
    assert_eq!(path.as_bytes(), b"~/x");
    assert_eq!(path.interpolate(directories), Ok("/home/ada/x".into()));
    let interpolated = |name: &str, directories: Context<'_>| {
        let path = file.path_by("p", None, name).expect("a path");
        path.interpolate(directories).map_err(|it| it.number())
    };
    assert_eq!(interpolated("git", directories), Ok("/git/etc".into()));
    assert_eq!(interpolated("plain", Context::default()), Ok("/y".into()));
    for name in ["home", "git", "empty"] {
        assert_eq!(interpolated(name, Context::default()), Err(12));
    }
    assert_eq!(interpolated("ada", directories), Err(12));
    let only_git = Context {
        home_dir: None,
        ..directories
    };
    let only_home = Context {
        git_install_dir: None,
        ..directories
    };
    assert_eq!(interpolated("git", only_git), Ok("/git/etc".into()));
    assert_eq!(interpolated("home", only_git), Err(12));
    assert_eq!(interpolated("home", only_home), Ok("/home/ada/x".into()));
    assert_eq!(interpolated("git", only_home), Err(12));
    assert_eq!(interpolated("latin", directories), Err(13));
    let latin = Path::new(std::ffi::OsStr::from_bytes(b"/\xff"));
    let unknown = Context {
        home_dir: Some(latin),
        ..directories
    };
    assert_eq!(interpolated("home", unknown), Err(101));
    assert!(file.path("p.none").is_none() && file.path("p").is_none());
    assert!(file.path_by("q", None, "home").is_none());
}

/// The files of the machine and of a user, who includes another.
fn of_machine_and_user() -> File {
    let text = |words: &str| Found::Text(words.as_bytes().to_vec());
    let user = "[a]\n\tk = ada\n[include]\n\tpath = ~/more\n";
    let mut files = Kept(
        vec![
            ("/etc/gitconfig", text("[a]\n\tk = machine\n")),
            ("/home/ada/.gitconfig", text(user)),
            ("/home/ada/more", text("[a]\n\tk = more\n")),
        ],
        0,
    );
    let mut variables = Set(vec![("HOME", b"/home/ada")]);
    File::from_globals_of(&of_ada(), &mut files, &mut variables).expect("files")
}

#[test]
fn where_files_and_sections_come_from() {
    let file = of_machine_and_user();
    let told = |path: &str, source, level| Metadata {
        path: Some(path.into()),
        source,
        level,
        trust: Trust::Full,
    };
    let wanted = [
        told("/etc/gitconfig", Source::System, 0),
        told("/home/ada/.gitconfig", Source::User, 0),
        told("/home/ada/.gitconfig", Source::User, 0),
        told("/home/ada/more", Source::User, 1),
    ];
    let found: Vec<_> = file.sections().map(|it| it.meta().clone()).collect();
    assert_eq!(found, wanted);
    assert_eq!(file.meta(), &wanted[0]);
    let of_text = Metadata {
        path: None,
        source: Source::Api,
        level: 0,
        trust: Trust::Full,
    };
    let mut file = File::try_from("[a]\n").expect("a text");
    assert_eq!(file.meta(), &of_text);
    assert_eq!(File::default().meta(), &of_text);
    let mut editor = file.section_mut("a", None).expect("a section");
    assert_eq!(editor.section().meta(), &of_text);
    editor.set_trust(Trust::Reduced);
    let trust = Trust::Reduced;
    assert_eq!(editor.section().meta(), &Metadata { trust, ..of_text });
}

#[test]
fn values_in_some_sections() {
    let file = of_machine_and_user();
    let machine = |meta: &Metadata| meta.source == Source::System;
    let user = |meta: &Metadata| meta.source == Source::User;
    // (these need the path or the level: no source and no trust says as much)
    let included = |meta: &Metadata| meta.level > 0;
    let own = |meta: &Metadata| meta.path.as_deref() == Some(Path::new("/home/ada/.gitconfig"));
    assert_eq!(file.raw_value_filter("a.k", machine), Ok("machine".into()));
    assert_eq!(file.string_filter("a.k", user), Some("more".into()));
    assert_eq!(file.string_filter("A.k", own), Some("ada".into()));
    assert_eq!(
        file.string_filter_by("a", None, "K", |meta| !included(meta)),
        Some("ada".into())
    );
    assert_eq!(
        file.raw_values_filter("a.k", user),
        Ok(texts(&["ada", "more"]))
    );
    assert_eq!(
        file.strings_filter("a.k", |meta| machine(meta) || included(meta)),
        Some(texts(&["machine", "more"]))
    );
    assert_eq!(
        file.strings_filter_by("a", None, "k", |_| true),
        Some(texts(&["machine", "ada", "more"]))
    );
    let missing = lookup::existing::Error::KeyMissing;
    assert_eq!(file.raw_value_filter("a.k", |_| false), Err(missing));
    assert_eq!(file.raw_value_filter("a", |_| true), Err(missing));
    assert_eq!(
        file.raw_values_filter_by("a", None, "none", own),
        Err(missing)
    );
    assert_eq!(
        file.raw_value_filter_by("b", None, "k", own),
        Err(lookup::existing::Error::SectionMissing)
    );
    assert_eq!(
        file.raw_values_filter("a.b.k", user),
        Err(lookup::existing::Error::SubSectionMissing)
    );
    assert!(file.strings_filter("a.k", |_| false).is_none());
    // (the file itself is as it was)
    assert!(file.sections().all(|it| it.meta().trust == Trust::Full));
}

#[test]
fn typed_values_in_some_sections() {
    let text = "[core]\n\tbare\n\tn = 2k\n[core]\n\tbare = vi\n\tn = x\n";
    let mut file = File::try_from(text).expect("a text");
    let mut last = file.section_mut("core", None).expect("a section");
    last.set_trust(Trust::Reduced);
    let trusted = |meta: &Metadata| meta.trust == Trust::Full;
    assert_eq!(file.boolean_filter("core.bare", trusted), Ok(Some(true)));
    assert_eq!(
        file.integer_filter_by("core", None, "n", trusted),
        Ok(Some(2048))
    );
    assert_eq!(file.integer_filter("core.n", |_| false), Ok(None));
    assert_eq!(
        file.boolean_filter_by("core", None, "none", trusted),
        Ok(None)
    );
    assert_eq!(file.boolean_filter("core", trusted), Ok(None));
    let other = |meta: &Metadata| !trusted(meta);
    let refused = file.boolean_filter("core.bare", other);
    assert_eq!(refused.map_err(|it| it.input), Err("vi".into()));
    let refused = file.integer_filter("core.n", |_| true);
    assert_eq!(refused.map_err(|it| it.input), Err("x".into()));
}

#[test]
fn some_sections_are_written() {
    let file = File::try_from("# mine\n[a]\n\tk = 1\n[b]\n\tk = 2\n[A]\n").expect("a text");
    let written = |filter: &dyn Fn(&SectionRef<'_>) -> bool| {
        let mut out = Vec::new();
        file.write_to_filter(&mut out, filter).expect("room");
        BString::from(out)
    };
    assert_eq!(written(&|_| true), file.to_bstring());
    assert_eq!(
        written(&|it| it.header().name() == "b"),
        "# mine\n[b]\n\tk = 2\n"
    );
    assert_eq!(
        written(&|it| it.num_values() == 0 || it.value("k") == Some("1".into())),
        "# mine\n[a]\n\tk = 1\n[A]\n"
    );
    assert_eq!(written(&|_| false), "# mine\n");
    let full = file.write_to_filter(&mut [0; 4][..], |_| true);
    assert_eq!(
        full.map_err(|it| it.kind()),
        Err(std::io::ErrorKind::WriteZero)
    );
}

#[test]
fn sections_by_their_names() {
    let text = "[core]\n\tk = 0\n[core \"x\"]\n\tk = 1\n[CORE]\n\tk = 2\n[core.x]\n\tk = 3\n";
    let mut file = File::try_from(text).expect("a text");
    let (lacks_section, lacks_subsection) = (
        lookup::existing::Error::SectionMissing,
        lookup::existing::Error::SubSectionMissing,
    );
    let value = |section: SectionRef<'_>| section.value("k").unwrap_or_default();
    let value_of = |section: Section| section.value("k").unwrap_or_default();
    let x: Option<&BStr> = Some("x".into());
    assert_eq!(file.section("core", None).map(value), Ok("2".into()));
    assert_eq!(file.section("CoRe", x).map(value), Ok("3".into()));
    assert_eq!(
        file.section("core", b"X".as_bstr()).err(),
        Some(lacks_subsection)
    );
    assert_eq!(file.section("nope", None).err(), Some(lacks_section));
    let all = file.sections_by_name("Core").expect("sections");
    assert_eq!(
        all.map(value).collect::<Vec<_>>(),
        texts(&["0", "1", "2", "3"])
    );
    assert!(file.sections_by_name("nope").is_none());

    let mut last = file.section_mut("core", None).expect("a section");
    last.set_trust(Trust::Reduced);
    let trusted = |meta: &Metadata| meta.trust == Trust::Full;
    let found = file.section_filter("core", None, trusted);
    assert_eq!(found.map(|it| it.map(value)), Ok(Some("0".into())));
    assert_eq!(file.section_filter("core", x, |_| false), Ok(None));
    let refused = file.section_filter("nope", None, trusted);
    assert_eq!(refused, Err(lacks_section));
    let all = file.sections_by_name_and_filter("core", trusted);
    let all: Vec<_> = all.expect("sections").map(value).collect();
    assert_eq!(all, texts(&["0", "1", "3"]));
    let none = file.sections_by_name_and_filter("core", |_| false);
    assert_eq!(none.map(|it| it.count()), Some(0));
    assert!(file.sections_by_name_and_filter("nope", trusted).is_none());

    let editor = file.section_mut_filter("core", None, trusted);
    let mut editor = editor.expect("a section").expect("a trusted one");
    assert_eq!(editor.set("k", "new"), Ok(Some("0".into())));
    let none = file.section_mut_filter("core", None, |_| false);
    assert!(none.expect("a section").is_none());
    let refused = file.section_mut_filter("core", b"y".as_bstr(), trusted);
    assert_eq!(refused.err(), Some(lacks_subsection));
    let removed = file.remove_section_filter("core", None, trusted);
    assert_eq!(removed.map(value_of), Some("new".into()));
    assert!(file.remove_section_filter("core", None, trusted).is_none());
    assert!(file.remove_section_filter("nope", None, trusted).is_none());
    let removed = file.remove_section("core", x);
    assert_eq!(removed.map(value_of), Some("3".into()));
    assert_eq!(file.to_string(), "[core \"x\"]\n\tk = 1\n[CORE]\n\tk = 2\n");
}

#[test]
fn entries_below_the_last_one() {
    let mut file = File::try_from("[a]\n\tk = 1\n\n# of b\n[b] # b\n").expect("a text");
    let mut a = file.section_mut("a", None).expect("a section");
    assert!(a.push_after_last("j", " 2").is_ok());
    assert_eq!(a.section().value("j"), Some(" 2".into()));
    let refused = a.push_after_last("a b", "2");
    assert_eq!(refused.expect_err("no name of a value").number(), 6);
    let mut b = file.section_mut("b", None).expect("a section");
    assert!(b.push_after_last("j", "3").is_ok());
    assert_eq!(
        file.to_string(),
        "[a]\n\tk = 1\n\tj = \" 2\"\n\n# of b\n[b] # b\n\tj = 3\n"
    );
}

#[test]
fn entries_are_removed_together() {
    let text = "[a]\n\tk = 1\n\tK = 2\n\tj = 3\n\tk\n\tk = 5\n[a \"x\"]\n\tk = 6\n";
    let mut file = File::try_from(text).expect("a text");
    let mut section = file.section_mut("a", None).expect("a section");
    assert_eq!(section.remove_marked("k", &[]), 0);
    assert_eq!(section.remove_marked("none", &[true]), 0);
    assert_eq!(section.remove_all("none"), 0);
    assert_eq!(section.remove_marked("k", &[true, false, true]), 2);
    assert_eq!(section.section().values("k"), ["2", "5"]);
    assert_eq!(section.remove_marked("k", &[false, true, true]), 1);
    assert_eq!(
        file.to_string(),
        "[a]\n\tK = 2\n\tj = 3\n[a \"x\"]\n\tk = 6\n"
    );
    file = File::try_from(text).expect("a text");
    let mut section = file.section_mut("A", None).expect("a section");
    assert_eq!(section.remove_all("K"), 4);
    assert_eq!(section.remove_all("k"), 0);
    assert_eq!(file.to_string(), "[a]\n\tj = 3\n[a \"x\"]\n\tk = 6\n");
}

fn string_of<Key: AsKey>(file: &File, key: &Key) -> Option<BString> {
    file.string(key)
}

#[test]
fn arguments_of_many_types() {
    let mut file = file();
    let key = String::from("remote.or.igin.url");
    assert_eq!(string_of(&file, &key), string_of(&file, &key.as_str()));
    assert_eq!(file.string_by("remote", "or.igin", "url"), Some("d".into()));
    assert_eq!(
        file.string_by("remote", String::from("or.igin"), String::from("url")),
        file.string_by("remote", BString::from("or.igin"), "url")
    );
    assert_eq!(file.string_by("core", None, "editor"), Some("vi".into()));
    assert_eq!(
        file.set_raw_value(&key, String::from("e")),
        Ok(Some("d".into()))
    );
    assert_eq!(
        file.set_raw_value("core.editor", b"ed"),
        Ok(Some("vi".into()))
    );
    assert_eq!(file.set_existing_raw_value("core.editor", &key), Ok(()));
    assert_eq!(
        file.set_existing_raw_multi_value("remote.or.igin.url", ["1", "2", "3"]),
        Ok(())
    );
    assert_eq!(file.strings(key), Some(texts(&["1", "2"])));
    assert_eq!(
        file.string("core.editor"),
        Some("remote.or.igin.url".into())
    );
    assert!(file.section("remote", "or.igin").is_ok() && file.section("core", None).is_ok());
}

#[test]
fn sections_that_are_there_or_made() {
    let mut file = File::try_from("[a \"b\"]\n\tk = 1\n[a]\n").expect("a text");
    let mut there = file.section_mut_or_create_new("A", "b").expect("a section");
    there
        .push("j", None)
        .expect("a name")
        .push("k", "2")
        .expect("a name")
        .push_newline()
        .expect("room");
    assert_eq!(there.pop(), Some((String::from("k"), "2".into())));
    let made = file.section_mut_or_create_new("c", "d").map(|_| ());
    assert_eq!(made, Ok(()));
    let refused = file.section_mut_or_create_new("a b", None).map(|_| ());
    assert_eq!(refused, Err(header::Error::InvalidName));
    assert_eq!(
        file.to_string(),
        "[a \"b\"]\n\tk = 1\n\tj\n[a]\n[c \"d\"]\n"
    );
}

#[test]
fn errors_have_their_kinds() {
    use gix_config::file::{rename_section, set_raw_value};
    let mut file = file();
    let refused = [
        (file.set_raw_value("a.b c", "x").map(|_| ()), 6),
        (file.set_raw_value("a b.c", "x").map(|_| ()), 4),
        (file.set_raw_value("a.b\nc.d", "x").map(|_| ()), 5),
        (file.set_existing_raw_value("none.k", "x"), 7),
        (file.set_existing_raw_value("remote.x.url", "x"), 8),
        (file.set_existing_raw_value("core.x", "x"), 9),
    ];
    for (answer, number) in refused {
        let error = answer.expect_err("a key that isn't set");
        let kind = match error {
            set_raw_value::Error::ValueName(_) => 6,
            set_raw_value::Error::Header(error) => error.number(),
            set_raw_value::Error::Lookup(error) => error.number(),
            set_raw_value::Error::Span(_) => 3,
        };
        assert_eq!((kind, error.number()), (number, number));
        assert!(!error.to_string().is_empty());
    }
    assert_eq!(
        file.rename_section("core", None, "a b", None),
        Err(rename_section::Error::Section(header::Error::InvalidName))
    );
    assert_eq!(
        file.rename_section("none", None, "a", None),
        Err(rename_section::Error::Lookup(
            lookup::existing::Error::SectionMissing
        ))
    );
}

#[test]
fn a_text_that_is_refused_in_a_load_has_its_path_and_place() {
    let mut files = Kept(
        vec![
            ("/a", Found::Text(b"[include]\n\tpath = b\n".to_vec())),
            ("/b", Found::Text(b"[x]\n\tk = v\n= 1\n".to_vec())),
        ],
        0,
    );
    let options = Options::follow_without_conditional(None);
    let refused = File::from_files(Path::new("/a"), options, &mut files)
        .expect_err("a text that can't be read on");
    let said = refused.to_string();
    assert!(said.starts_with("'/b': line 3, column 1: "), "{said}");
    match refused {
        from_paths::Error::Init(init::Error::Includes(Error::Parse { path, source })) => {
            assert_eq!(path, Path::new("/b"));
            assert_eq!((source.line_number(), source.number()), (3, 1));
            assert_eq!(source.remaining_data(), b"= 1\n");
        }
        other => panic!("{other}"),
    }
}

#[test]
fn the_default_follows_nothing() {
    let mut files = Kept(
        vec![
            (
                "/a",
                Found::Text(b"[include]\n\tpath = b\n[x]\n\tk = 1\n".to_vec()),
            ),
            ("/b", Found::Text(b"[x]\n\tk = 2\n".to_vec())),
        ],
        0,
    );
    let mut file =
        File::from_files(Path::new("/a"), Options::default(), &mut files).expect("files");
    assert_eq!((file.strings("x.k"), files.1), (Some(texts(&["1"])), 1));
    assert_eq!(file.meta().path.as_deref(), Some(Path::new("/a")));
    file.resolve_includes_of(Options::no_follow(), &mut files)
        .expect("nothing");
    assert_eq!((file.sections().count(), files.1), (2, 1));
    let follow = Options::follow_without_conditional(None);
    file.resolve_includes_of(follow, &mut files).expect("files");
    assert_eq!(file.strings("x.k"), Some(texts(&["2", "1"])));

    let mut variables = Set(vec![
        ("GIT_CONFIG_COUNT", b"1"),
        ("GIT_CONFIG_KEY_0", b"include.path"),
        ("GIT_CONFIG_VALUE_0", b"/b"),
    ]);
    let made = File::from_env_of(Options::default(), &mut files, &mut variables);
    let made = made.expect("an entry").expect("an entry");
    assert_eq!(made.sections().count(), 1);
    let made = File::from_env_of(follow, &mut files, &mut variables);
    assert_eq!(made.expect("files").expect("files").sections().count(), 2);
}

#[test]
fn a_filter_is_asked_of_the_sections_of_its_key() {
    let file = File::try_from("[a]\n\tk = 1\n[b]\n\tk = 2\n[A]\n\tk = 3\n[a \"s\"]\n\tk = 4\n")
        .expect("a text");
    let mut asked = 0;
    let mut every_other = |_: &Metadata| {
        asked += 1;
        asked % 2 == 1
    };
    assert_eq!(
        file.string_filter("a.k", &mut every_other),
        Some("1".into())
    );
    assert_eq!(asked, 2);
    assert_eq!(
        file.raw_value_filter("a.k", |_| false),
        Err(lookup::existing::Error::KeyMissing)
    );
    assert_eq!(
        file.raw_value_filter("a.x.k", |_| false),
        Err(lookup::existing::Error::SubSectionMissing)
    );
}

#[test]
fn values_in_a_type() {
    let file = file();
    let url: Result<Vec<u8>, _> = file.value("remote.or.igin.url");
    assert_eq!(url.expect("a value"), b"d");
    let urls: Result<Vec<Vec<u8>>, _> = file.values_by("remote", "or.igin", "url");
    assert_eq!(urls.expect("values"), [b"a b c".to_vec(), b"d".to_vec()]);
    assert_eq!(file.try_value("core.none"), Ok(None::<Vec<u8>>));
    assert_eq!(
        file.value::<Vec<u8>>("core.none"),
        Err(lookup::Error::ValueMissing(
            lookup::existing::Error::KeyMissing
        ))
    );
    #[derive(Debug, PartialEq)]
    struct Word(String);
    impl TryFrom<BString> for Word {
        type Error = usize;
        fn try_from(value: BString) -> Result<Self, usize> {
            match value.find_byte(b' ') {
                Some(at) => Err(at),
                None => Ok(Word(value.to_string())),
            }
        }
    }
    assert_eq!(
        file.try_value_by("core", None, "editor"),
        Ok(Some(Word("vi".into())))
    );
    assert_eq!(
        file.values::<Word>("remote.or.igin.url"),
        Err(lookup::Error::FailedConversion(1))
    );
    assert_eq!(
        file.value_by::<Word>("remote", "or.igin", "url"),
        Ok(Word("d".into()))
    );
}

#[test]
fn sections_by_their_keys() {
    let mut file = File::try_from("[a]\n\tk = 1\n[a \"b.c\"]\n\tk = 2\n").expect("a text");
    let value = |key: &str| file.section_by_key(key).map(|it| it.value("k"));
    assert_eq!(value("a"), Ok(Some("1".into())));
    assert_eq!(value("A.b.c"), Ok(Some("2".into())));
    assert_eq!(
        value("a.x"),
        Err(lookup::existing::Error::SubSectionMissing)
    );
    assert_eq!(
        file.section_filter_by_key("a", |meta| meta.source == Source::Local),
        Ok(None)
    );
    let mut editor = file.section_mut_by_key("a.b.c").expect("a section");
    editor.push("j", "3").expect("a name");
    assert_eq!(
        (editor.value("j"), editor.values("k"), editor.num_values()),
        (Some("3".into()), texts(&["2"]), 2)
    );
    assert!(editor.contains_value_name("J") && editor.value_implicit("x").is_none());
    let kept = file.section_mut_filter_by_key("a", |_| true);
    assert!(kept.expect("a section").is_some());
}

#[test]
fn kinds_of_sources_and_metadata_that_is_made() {
    for kind in [
        Kind::GitInstallation,
        Kind::System,
        Kind::Global,
        Kind::Repository,
        Kind::Override,
    ] {
        assert!(kind.sources().iter().all(|it| it.kind() == kind));
    }
    let made = Metadata::from(Source::Local).at("/x").with(Trust::Reduced);
    assert_eq!(
        (made.path.as_deref(), made.source, made.level, made.trust),
        (Some(Path::new("/x")), Source::Local, 0, Trust::Reduced)
    );
    assert_eq!(&Metadata::default(), file().meta());
}

#[test]
fn integers_booleans_and_paths_of_any_text() {
    let file =
        File::try_from("[a]\n\tn = 1k\n\tn = -2\n[a]\n\tn = x\n\tp = ~/p\n").expect("a text");
    let refused = file.integers("a.n").expect_err("x is no integer");
    assert_eq!(
        refused,
        gix_config::value::Error::new("not an integer", "x")
    );
    let mut asked = 0;
    let first = file.integers_filter("a.n", |_| {
        asked += 1;
        asked == 1
    });
    assert_eq!(first, Ok(Some(vec![1024, -2])));
    assert_eq!(file.integers_by("a", None, "none"), Ok(None));
    assert_eq!(file.num_values(), 4);
    assert_eq!(BString::from(file.clone()), file.to_bstring());

    for (text, is_so) in [
        ("yes", true),
        ("ON", true),
        ("0", false),
        ("", false),
        ("-7", true),
    ] {
        assert_eq!(
            Boolean::try_from(BString::from(text)),
            Ok(Boolean(is_so)),
            "{text}"
        );
    }
    assert!(Boolean::try_from(b"maybe".as_bstr()).is_err());
    assert_eq!(
        file.value_by::<Boolean>("a", None, "n"),
        Err(lookup::Error::FailedConversion(
            gix_config::value::Error::new("not a boolean", "x")
        ))
    );

    let path = file.path_filter("a.p", |_| true).expect("a path");
    assert_eq!(path, gix_config::Path::from(BString::from("~/p")));
    let context = Context {
        home_dir: Some(Path::new("/home/ada")),
        ..Context::default()
    };
    for (text, wanted) in [
        ("~/p", "/home/ada/p"),
        (" a;b \"c\" \\\n", " a;b \"c\" \\\n"),
        ("x", "x"),
    ] {
        let path = gix_config::Path::from(BString::from(text));
        assert_eq!(
            path.interpolate(context).expect("a path"),
            Path::new(wanted)
        );
    }
}

#[test]
fn texts_that_are_formatted() {
    use gix_config::format::{normalize, Indent, Newline, Options};
    let text = b"  # c\n\n\n[a]\nk=1\n\n\n\nj";
    assert_eq!(
        normalize(text, Options::default()).expect("a text"),
        "# c\n\n\n[a]\n\tk = 1\n\n\n\n\tj\n"
    );
    let options = Options {
        root_comment_indent: None,
        key_value_indent: Indent::Spaces(2),
        spaces_around_separator: false,
        newline: Newline::CrLf,
        max_leading_blank_lines: Some(0),
        max_consecutive_blank_lines: Some(1),
        ..Options::default()
    };
    assert_eq!(
        normalize(text, options).expect("a text"),
        "  # c\r\n\r\n[a]\r\n  k=1\r\n\r\n  j\r\n"
    );
    let refused = normalize(b"[a]\n= 1\n", Options::default()).expect_err("no text");
    assert_eq!(refused.line_number(), 2);
}

#[test]
fn edits_of_the_sections_that_a_filter_keeps() {
    let text = "[a]\n\tk = 1\n[a]\n\tk = 2\n";
    let mut file = File::try_from(text).expect("a text");
    file.section_mut("a", None)
        .expect("a section")
        .set_trust(Trust::Reduced);
    let trusted = |meta: &Metadata| meta.trust == Trust::Full;
    assert_eq!(
        file.set_raw_value_filter("a.k", "3", trusted),
        Ok(Some("1".into()))
    );
    assert_eq!(
        file.set_raw_value_filter_by("a", None, "k", "4", |_| false),
        Ok(None)
    );
    assert_eq!(file.strings("a.k"), Some(texts(&["3", "2", "4"])));
    let refused = [("b c.k", 4), ("b.k k", 6), ("b c.k k", 6)];
    for (key, number) in refused {
        let before = file.to_string();
        let error = file.set_raw_value_filter(key, "x", |_| false);
        assert_eq!(error.map_err(|it| it.number()), Err(number));
        assert_eq!(file.to_string(), before);
    }
    assert_eq!(
        file.rename_section_filter("a", None, "b", "s", trusted),
        Ok(())
    );
    assert_eq!(
        file.to_string(),
        "[b \"s\"]\n\tk = 3\n[a]\n\tk = 2\n[b \"s\"]\n\tk = 4\n"
    );
    let refused = file.rename_section_filter("a", None, "c", None, trusted);
    assert_eq!(refused.map_err(|it| it.number()), Err(9));
    let made = file.section_mut_or_create_new_filter("a", None, trusted);
    made.expect("a section").push("n", None).expect("a name");
    assert_eq!(file.sections().count(), 4);
}

#[test]
fn values_with_their_sections() {
    let text = "[a]\n\tk = 1\n\tk = 2\n[a]\n\tk\n[a]\n\tj = 3\n";
    let file = File::try_from(text).expect("a text");
    let place = |section: SectionRef<'_>| file.sections().position(|it| it.id() == section.id());
    let (value, section) = file.raw_value_with_section("a.k").expect("a value");
    assert_eq!((value, place(section)), ("2".into(), Some(0)));
    let all = file.raw_values_with_sections("a.k").expect("values");
    let all: Vec<_> = all.into_iter().map(|it| (it.0, place(it.1))).collect();
    let wanted = [("1", 0), ("2", 0), ("", 1)];
    let wanted = wanted.map(|(value, at)| (BString::from(value), Some(at)));
    assert_eq!(all, wanted);
    let (value, section) = file.value_with_section::<Vec<u8>>("a.j").expect("a value");
    assert_eq!((&*value, place(section)), (&b"3"[..], Some(2)));
    let all = file.values_with_sections_by::<Vec<u8>>("a", None, "k");
    assert_eq!(all.expect("values").len(), 3);
    let none = file.raw_value_with_section_filter("a.k", |meta| meta.level == 1);
    assert_eq!(
        none.map(|it| it.0),
        Err(lookup::existing::Error::KeyMissing)
    );
}

#[test]
fn numbers_of_sections() {
    let mut file = File::try_from("[a]\n\tk = 1\n[b]\n[a]\n\tk = 2\n").expect("a text");
    let ids: Vec<_> = file.section_ids().collect();
    let found = file.sections_and_ids_by_name("A").expect("sections");
    assert_eq!(found.map(|it| it.1).collect::<Vec<_>>(), [ids[0], ids[2]]);
    let removed = file.remove_section_by_id(ids[0]).expect("a section");
    assert_eq!(removed.value("k"), Some("1".into()));
    assert!(file.remove_section_by_id(ids[0]).is_none());
    let new = file.new_section("c", None).expect("a section").id();
    file.set_raw_value("d.k", "1").expect("a section");
    let copy = file.clone();
    let mut last = file.section_mut_by_id(ids[2]).expect("a section");
    assert_eq!((last.id(), last.meta().level), (ids[2], 0));
    last.set("k", "3").expect("a value");
    assert_eq!(last.value_names().collect::<Vec<_>>(), ["k"]);
    assert_eq!(
        (last.header().name(), last.body().num_values()),
        ("a".into(), 1)
    );
    assert_eq!(file.to_string(), "[b]\n[a]\n\tk = 3\n[c]\n[d]\n\tk = 1\n");
    let all: Vec<_> = copy.sections_and_ids().map(|it| it.1).collect();
    assert_eq!(all[..3], [ids[1], ids[2], new]);
    assert!(!ids.contains(&all[3]) && all[3] != new);
    assert!(file
        .section_mut_by_id(gix_config::file::SectionId::default())
        .is_none());
}

#[test]
fn editors_of_values() {
    let text = "[a]\n\tk = 1\n[a]\n\tk = 2 ; two\n\tbare\n";
    let mut file = File::try_from(text).expect("a text");
    let mut value = file.raw_value_mut("a.K").expect("an entry");
    assert_eq!(value.get(), Ok("2".into()));
    value.set("3").expect("room");
    assert_eq!(value.section().values("k"), ["3"]);
    value.delete();
    value.delete();
    assert_eq!(value.get(), Err(lookup::existing::Error::KeyMissing));
    value.set_string("4").expect("room");
    assert_eq!(value.into_section_mut().num_values(), 2);
    assert_eq!(file.strings("a.k"), Some(texts(&["1", "4"])));
    let bare = file.raw_value_mut_by("a", None, "bare").expect("an entry");
    assert_eq!(bare.get(), Err(lookup::existing::Error::KeyMissing));
    let none = file.raw_value_mut_filter("a.k", |_| false);
    assert_eq!(none.map(drop), Err(lookup::existing::Error::KeyMissing));
}

#[test]
fn sections_are_made_after_all_others() {
    let put = |file: &mut File, name: &str| {
        let mut editor = file.new_section(name, None).expect("a section");
        editor.push("k", name).expect("a name");
    };
    let mut file = File::try_from("[a]\n[b]\n").expect("a text");
    put(&mut file, "c");
    put(&mut file, "d");
    file.remove_section("a", None).expect("a section");
    put(&mut file, "e");
    file.set_raw_value("f.k", "f").expect("a section");
    put(&mut file, "g");
    let more = "[h]\n\tk = h\n[i]\n\tk = i\n";
    file.append(File::try_from(more).expect("a text"))
        .expect("room");
    put(&mut file, "j");
    let mut copy = file.clone();
    put(&mut copy, "l");
    put(&mut file, "m");
    assert!(file.new_section("n o", None).is_err());
    put(&mut file, "p");
    let names = |file: &File| -> Vec<_> {
        let names = file.sections().map(|it| it.header().name().to_string());
        names.collect()
    };
    let all = ["b", "c", "d", "e", "f", "g", "h", "i", "j"];
    assert_eq!(names(&copy), [&all[..], &["l"]].concat());
    assert_eq!(names(&file), [&all[..], &["m", "p"]].concat());
    for section in file.sections().skip(1) {
        assert_eq!(section.values("k"), [section.header().name()]);
    }
}

#[test]
fn editors_of_several_values() {
    let text = "[a]\n\tk = 1\n[b]\n[A]\n\tk = 3 ; three\n\tK\n[a \"s\"]\n\tk = 4\n";
    let mut file = File::try_from(text).expect("a text");
    let mut values = file.raw_values_mut("a.k").expect("entries");
    assert_eq!(values.get(), Ok(texts(&["1", "3", ""])));
    assert_eq!((values.len(), values.is_empty()), (3, false));
    values.set_values(["x", "y"]).expect("room");
    values.set_string_at(2, "z w").expect("room");
    assert_eq!(values.get(), Ok(texts(&["x", "y", "z w"])));
    values.delete(1);
    values.set_at(1, "v").expect("room");
    assert_eq!(values.get(), Ok(texts(&["x", "v"])));
    let text = "[a]\n\tk = x\n[b]\n[A]\n\t ; three\n\tk = v\n[a \"s\"]\n\tk = 4\n";
    assert_eq!(file.to_string(), text);

    let first = file.section_ids().next().expect("a section");
    let mut editor = file.section_mut_by_id(first).expect("a section");
    editor.set_trust(Trust::Reduced);
    let trusted = |meta: &Metadata| meta.trust == Trust::Full;
    let mut values = file
        .raw_values_mut_filter_by("a", None, "K", trusted)
        .expect("entries");
    assert_eq!(values.get(), Ok(texts(&["v"])));
    values.set_all("all").expect("room");
    assert_eq!(file.strings("a.k"), Some(texts(&["x", "all"])));
    let mut values = file.raw_values_mut_by("a", None, "k").expect("entries");
    values.delete_all();
    assert!(values.is_empty());
    assert_eq!(values.get(), Err(lookup::existing::Error::KeyMissing));
    assert_eq!(file.strings("a.k"), None);
    let number = |key, kept| {
        let mut file = File::try_from("[a]\n\tk = 1\n").expect("a text");
        let values = file.raw_values_mut_filter(key, |_| kept);
        values.map(drop).map_err(|it| it.number())
    };
    assert_eq!(
        (number("a.k", true), number("a.k", false)),
        (Ok(()), Err(9))
    );
    assert_eq!((number("a.j", true), number("b.k", true)), (Err(9), Err(7)));
    assert_eq!(
        (number("a.s.k", true), number("a.1", true)),
        (Err(8), Err(6))
    );
}

#[test]
fn texts_of_sections() {
    let mut file = File::try_from("# mine\n[a]\n\tk = 1 ; one\n\n# b\n[b \"x\"]").expect("a text");
    let told: Vec<_> = file.sections().map(|it| it.to_bstring()).collect();
    assert_eq!(told, ["[a]\n\tk = 1 ; one\n\n# b\n", "[b \"x\"]"]);
    let mut written = Vec::new();
    let section = file.section("b", "x").expect("a section");
    section.write_to(&mut written).expect("memory");
    assert_eq!(written.as_bstr(), "[b \"x\"]");
    let mut editor = file.section_mut("a", None).expect("a section");
    editor.set("k", "2").expect("a value");
    assert_eq!(editor.to_bstring(), "[a]\n\tk = 2 ; one\n\n# b\n");
}

#[test]
fn headers_as_they_are_written() {
    let text = "[a]k\n[B.C]\n[b \"x]\\\"]\"] [b \"c\"]#\n";
    let mut file = File::try_from(text).expect("a text");
    let told = |it: SectionRef<'_>| (it.header().to_bstring(), it.header().is_legacy());
    let all: Vec<_> = file.sections().map(told).collect();
    let wanted = [
        ("[a]", false),
        ("[B.C]", true),
        ("[b \"x]\\\"]\"]", false),
        ("[b \"c\"]", false),
    ];
    let wanted = wanted.map(|(text, is_legacy)| (BString::from(text), is_legacy));
    assert_eq!(all, wanted);
    let sections: Vec<_> = file.sections().map(|it| it.to_owned()).collect();
    // (the same name of a subsection, as it is read)
    assert_ne!(sections[1], sections[3]);
    assert_eq!(sections[1].header().subsection_name(), Some("c".into()));
    let removed = file.remove_section("b", "c").expect("a section");
    assert_eq!(
        (&removed, removed.header().to_bstring()),
        (&sections[3], "[b \"c\"]".into())
    );
}

#[test]
fn sections_with_nothing_in_them() {
    let void = |text: &str| -> Vec<_> {
        let file = File::try_from(text).expect("a text");
        let each: Vec<_> = file.sections().map(|it| it.body().is_void()).collect();
        assert_eq!(file.is_void(), !each.contains(&false));
        each
    };
    assert_eq!(void("# front\n"), []);
    assert_eq!(void("[a][b \"x]\\\"]\"][c.d]"), [true, true, true]);
    assert_eq!(
        void("[a]\n[b \"]\"] [c]k\n[d]#\n[e]"),
        [false, false, false, false, true]
    );
    let mut made = File::try_from("[a]").expect("a text");
    let mut editor = made.section_mut("a", None).expect("a section");
    assert!(editor.is_void());
    assert!(!editor.push("k", "v").expect("a name").is_void());
}

#[test]
fn files_of_texts_from_elsewhere() {
    let meta = Metadata::from(Source::User).at("/home/ada/.gitconfig");
    let text = b"[a]\n\tk = 1 ; one\n";
    let file = File::from_bytes_no_includes(text, meta.clone(), Default::default());
    let file = file.expect("a text");
    assert_eq!(
        (file.meta(), &file.to_string().into_bytes()[..]),
        (&meta, &text[..])
    );
    let options = init::Options {
        lossy: true,
        ..Default::default()
    };
    let lossy = File::from_bytes_owned(&mut text.to_vec(), meta.clone(), options);
    assert_eq!(lossy.expect("a text").to_string(), "[a]\nk=1\n");
    let refused = File::from_bytes_no_includes(b"[", meta.clone(), options);
    assert_eq!(refused.expect_err("no text").number(), 1);
    let odd = meta.at(Path::new(std::ffi::OsStr::from_bytes(b"\xff")));
    let refused = File::from_bytes_no_includes(text, odd, options);
    assert_eq!(refused.expect_err("no path").number(), 101);

    let mut file = File::new(Source::Cli);
    file.set_raw_value("a.k", "1").expect("a value");
    assert_eq!(
        file.section("a", None).map(|it| it.meta().source),
        Ok(Source::Cli)
    );
}

#[test]
fn files_of_the_disk() {
    let room = std::env::temp_dir().join(format!("gix-config-{}", std::process::id()));
    std::fs::create_dir_all(&room).expect("a directory");
    let write = |name: &str, text: &str| {
        let path = room.join(name);
        std::fs::write(&path, text).expect("a file");
        path
    };
    let one = write("one", "[a]\n\tk = 1\n[include]\n\tpath = two\n");
    let two = write("two", "[a]\n\tk = 2\n");
    let file = File::from_path_no_includes(one.clone(), Source::Local).expect("a file");
    assert_eq!(file.meta(), &Metadata::from(Source::Local).at(&one));
    assert_eq!(file.strings("a.k"), Some(texts(&["1"])));
    assert_eq!(
        Metadata::try_from_path(&one, Source::Local).ok().as_ref(),
        Some(file.meta())
    );

    let none = room.join("none");
    let of = |path: &Path| Metadata::from(Source::User).at(path);
    let options = init::Options::from(Options::follow_without_conditional(None));
    let metas = [of(&one), Metadata::api(), of(&one), of(&two)];
    let file = File::from_paths_metadata(metas, options).expect("files");
    let file = file.expect("files");
    assert_eq!(file.strings("a.k"), Some(texts(&["1", "2", "2"])));
    match File::from_paths_metadata(Some(of(&none)), options) {
        Err(from_paths::Error::Io { path, source }) => {
            assert_eq!(
                (path, source.kind()),
                (none.clone(), io::ErrorKind::NotFound)
            );
        }
        other => panic!("{other:?}"),
    }
    let mut missing = Some(of(&none)).into_iter();
    let file = File::from_paths_metadata_buf(&mut missing, &mut Vec::new(), false, options);
    assert!(file.expect("no files").is_none());
    let ignoring = init::Options {
        ignore_io_errors: true,
        ..options
    };
    let file = File::from_paths_metadata([of(&room), of(&none)], ignoring).expect("a directory");
    assert_eq!(file.expect("a directory").to_string(), "");
    std::fs::remove_dir_all(&room).expect("a directory");
}

#[test]
fn names_that_can_be_made() {
    use gix_config::parse::section::{name, Name};
    assert_eq!(
        Name::try_from("Core").map(|it| it.to_string()),
        Ok("Core".into())
    );
    assert_eq!(Name::try_from("core"), Name::try_from(String::from("CORE")));
    assert_eq!(Name::try_from("a b"), Err(name::Error));
    assert!(header::is_valid_subsection("a b\\"));
    assert!(!header::is_valid_subsection("a\nb"));
    let mut file = file();
    match file.raw_value_mut_by("core", None, "1") {
        Err(lookup::existing::Error::ValueName(error)) => assert_eq!(error.number(), 6),
        other => panic!("{other:?}"),
    }
}

#[test]
fn integers_as_they_are_written() {
    use gix_config::integer::{Integer, Suffix};
    let integer =
        |text: &str| Integer::try_from(text.as_bytes().as_bstr()).map_err(|it| it.message);
    let kibi = Integer {
        value: -2,
        suffix: Some(Suffix::Kibi),
    };
    assert_eq!((integer("-2k"), kibi.to_string()), (Ok(kibi), "-2k".into()));
    assert_eq!(kibi.to_decimal(), Some(-2048));
    let large = integer("9223372036854775807G").expect("an integer");
    assert_eq!(
        (large.suffix, large.to_decimal()),
        (Some(Suffix::Gibi), None)
    );
    for text in ["", "k", "1kk", "1x", "9223372036854775808"] {
        assert_eq!(integer(text), Err("not an integer"), "{text}");
    }
}

#[test]
fn line_endings_of_a_text() {
    let newline = |text: &str| {
        File::try_from(text)
            .expect("a text")
            .detect_newline_style()
            .to_string()
    };
    assert_eq!(
        (newline(""), newline("[a]\n\tk = 1\r\n")),
        ("\n".into(), "\n".into())
    );
    assert_eq!(newline("; c\r\n[a]\n"), "\r\n");
}

#[test]
fn texts_that_were_read() {
    use gix_config::parse::Events;
    let text = "[a]\n\tk = 1 ; one\n";
    let events = Events::from_bytes(text.as_bytes(), None).expect("a text");
    assert_eq!(Events::try_from(text), Ok(events.clone()));
    let file = File::from_parse_events_no_includes(events, Source::Local);
    assert_eq!(file.to_string(), text);
    assert_eq!(file.meta_owned(), Metadata::from(Source::Local));
    let refused = Events::try_from(&b"[a]\n= 1\n"[..]).expect_err("no text");
    assert_eq!(refused.remaining_data(), b"= 1\n");
}

#[test]
fn places_of_sources() {
    let mut set = vec![("HOME", "/home/ada")];
    let place = |source: Source, set: &[(&str, &str)]| {
        let mut env = |name: &str| Some(set.iter().find(|it| it.0 == name)?.1.into());
        let found = source.storage_location(&mut env);
        found.map(|it| it.display().to_string())
    };
    let own = |words: &str| Some(words.to_owned());
    assert_eq!(place(Source::System, &set), own("/etc/gitconfig"));
    assert_eq!(
        place(Source::Git, &set),
        own("/home/ada/.config/git/config")
    );
    assert_eq!(place(Source::User, &set), own("/home/ada/.gitconfig"));
    assert_eq!(place(Source::Worktree, &set), own("config.worktree"));
    assert_eq!(
        (place(Source::Api, &set), place(Source::User, &[])),
        (None, None)
    );
    set.extend([("XDG_CONFIG_HOME", "/x"), ("GIT_CONFIG_NOSYSTEM", "yes")]);
    assert_eq!(
        (place(Source::System, &set), place(Source::Git, &set)),
        (None, own("/x/git/config"))
    );
    set.push(("GIT_CONFIG_GLOBAL", "/g"));
    assert_eq!(
        (place(Source::Git, &set), place(Source::User, &set)),
        (own("/g"), own("/g"))
    );
}

#[test]
fn home_directories_of_other_users() {
    use gix_config::path::interpolate::{home_for_user, Error};
    let of = |text: &str, home_for_user| {
        let path = gix_config::Path::from(BString::from(text));
        path.interpolate(Context {
            home_dir: Some(Path::new("/home/ada")),
            home_for_user,
            ..Context::default()
        })
    };
    let known: fn(&str) -> _ = |user| (user == "bob").then(|| "/home/bob".into());
    assert_eq!(of("~bob/a/b", Some(known)), Ok("/home/bob/a/b".into()));
    assert_eq!(of("~bob", Some(known)), Ok("/home/bob/".into()));
    assert_eq!(of("~/a", Some(known)), Ok("/home/ada/a".into()));
    assert_eq!(of("~eve/a", Some(known)), Err(Error::Missing));
    assert_eq!(of("~bob/a", None), Err(Error::Missing));
    assert_eq!(home_for_user("root"), Some("/root".into()));
    assert_eq!(home_for_user("nobody here"), None);
}
