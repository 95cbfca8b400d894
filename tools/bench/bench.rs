//! Times what the Rust crate does with a file, as often as asked: `bench WHAT ROUNDS KEY FILE`.
//!
//! WHAT is a word of `crates/bench`, but `match` and `in-text`; each round prints its nanoseconds. With `--cfg binding` it is a program
//! over the crate of bindings/rust, which lacks events and the driver's table of files.
#[cfg(not(binding))]
use std::collections::BTreeSet;
use std::{hint::black_box, mem, time::Instant};

use gix_config::{
    File,
    file::{Metadata, init},
    format,
};
#[cfg(not(binding))]
use gix_config::{file::includes, parse, value};
#[cfg(not(binding))]
use host::Entry;

const LOOKUPS: u32 = 256;
const PUSHES: u32 = 100_000;

fn load_by(text: &[u8], options: init::Options<'_>) -> File {
    File::from_bytes_no_includes(black_box(text), Metadata::api(), options).ok().expect("a text that is read")
}

fn load(text: &[u8]) -> File {
    load_by(text, init::Options::default())
}

fn load_lossy(text: &[u8]) -> File {
    load_by(text, init::Options { lossy: true, ..Default::default() })
}

fn nanos(work: impl FnOnce()) -> u128 {
    let start = Instant::now();
    work();
    start.elapsed().as_nanos()
}

#[cfg(not(binding))]
fn events(text: &[u8]) -> u128 {
    nanos(|| drop(black_box(parse::Events::from_bytes(black_box(text), None)).ok().expect("a text that is read")))
}

fn set(text: &[u8], key: &str) -> u128 {
    let mut file = load(text);
    nanos(|| drop(black_box(file.set_raw_value(key, "a new value"))))
}

fn push(text: &[u8], key: &str) -> u128 {
    let mut file = load(text);
    let (section, name) = key.rsplit_once('.').expect("a key has a dot");
    let taken = nanos(|| {
        let mut editor = file.section_mut_by_key(section).expect("the section is there");
        (0..PUSHES).for_each(|_| drop(black_box(editor.push(black_box(name), "a new value").is_ok())));
    });
    taken / u128::from(PUSHES)
}

/// The text at a path of the form `/DEPTH/SECTIONS/NAME`, as `made` of `crates/bench` makes it, and the path that it includes.
#[cfg(not(binding))]
fn made(path: &str) -> (String, Option<String>) {
    let [_, depth, sections, name] = path.splitn(4, '/').collect::<Vec<_>>()[..] else {
        panic!("{path} is not of that form");
    };
    let depth: u32 = depth.parse().expect("a number of levels");
    let mut text: String = (0..sections.parse::<u32>().expect("a number of sections"))
        .map(|n| format!("[s \"{n}\"]\n\tk = v\n"))
        .collect();
    let below = depth.checked_sub(1).map(|below| format!("/{below}/{sections}/{name}"));
    if let Some(below) = &below {
        text.push_str(&format!("[include]\n\tpath = {below}\n"));
    }
    (text, below)
}

/// Puts all files into the driver's table that are included, so that reading one copies its bytes.
#[cfg(not(binding))]
fn make_files(file: &File) {
    let paths: BTreeSet<String> =
        file.strings("include.path").unwrap_or_default().iter().map(|path| path.to_string()).collect();
    for path in paths {
        let mut next = Some(path);
        while let Some(path) = next {
            let (text, below) = made(&path);
            host::with(|table| table.files.insert(path.into(), Entry::Bytes(text.into())));
            next = below;
        }
    }
}

#[cfg(not(binding))]
fn include(text: &[u8]) -> u128 {
    let mut file = load(text);
    let includes = includes::Options {
        max_depth: 255,
        err_on_max_depth_exceeded: false,
        ..includes::Options::follow(Default::default(), Default::default())
    };
    let options = init::Options { includes, ..Default::default() };
    let taken = nanos(|| file.resolve_includes(options).expect("includes that are resolved"));
    black_box(file);
    taken
}

fn look_ups(look_up: impl Fn()) -> u128 {
    nanos(|| (0..LOOKUPS).for_each(|_| look_up())) / u128::from(LOOKUPS)
}

fn main() {
    let words: Vec<String> = std::env::args().collect();
    let (what, key) = (words[1].as_str(), words[3].as_str());
    let text = std::fs::read(&words[4]).expect("a file");
    let mut file = match what {
        "decode" => File::default(),
        "lossy" => load_lossy(&text),
        _ => load(&text),
    };
    #[cfg(not(binding))]
    if what == "include" {
        make_files(&file);
    }
    for _ in 0..words[2].parse::<u32>().expect("a number of rounds") {
        let taken = match what {
            // An earlier file is let go.
            "load" => nanos(|| drop(mem::replace(&mut file, load(&text)))),
            "lossy" => nanos(|| drop(mem::replace(&mut file, load_lossy(&text)))),
            #[cfg(not(binding))]
            "events" => events(&text),
            "look-up" => look_ups(|| drop(black_box(file.string(black_box(key))))),
            "raw" => look_ups(|| drop(black_box(file.raw_value(black_box(key))))),
            "boolean" => look_ups(|| drop(black_box(file.boolean(black_box(key))))),
            "by-name" => look_ups(|| {
                let name = black_box(key).split('.').next().expect("a key has a dot");
                black_box(file.sections_by_name(name).and_then(|mut sections| sections.next()));
            }),
            "values" => nanos(|| drop(black_box(file.strings(black_box(key))))),
            "print" => nanos(|| drop(black_box(file.to_bstring()))),
            "set" => set(&text, key),
            "push" => push(&text, key),
            #[cfg(not(binding))]
            "include" => include(&text),
            "lay-out" => nanos(|| drop(black_box(format::normalize(black_box(&text), Default::default())).ok())),
            #[cfg(not(binding))]
            "decode" => nanos(|| drop(black_box(value::normalize(black_box(text.as_slice()))))),
            _ => panic!("{what} is no measure"),
        };
        println!("{taken}");
    }
}
