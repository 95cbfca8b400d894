//! Links the library for C: that of the directory GIX_CONFIG_LIBRARY, else the one that `make lib` put into out/lib, else the installed one,
//! which pkg-config finds.
use std::path::PathBuf;
use std::process::Command;

const ARCHIVE: &str = "libgix_config.a";

/// The directory of the library that is installed.
fn installed() -> Option<PathBuf> {
    let told = Command::new("pkg-config")
        .args(["--variable=libdir", "gix_config"])
        .output()
        .ok()?;
    let directory = PathBuf::from(String::from_utf8(told.stdout).ok()?.trim_end());
    directory.join(ARCHIVE).is_file().then_some(directory)
}

fn main() {
    let target = std::env::var("TARGET").unwrap_or_default();
    assert!(
        target.starts_with("x86_64-") && target.contains("-linux-"),
        "the library is for x86-64 with Linux alone, and not for {target}",
    );
    println!("cargo:rerun-if-env-changed=GIX_CONFIG_LIBRARY");
    println!("cargo:rerun-if-env-changed=PKG_CONFIG_PATH");
    let made = PathBuf::from(env!("CARGO_MANIFEST_DIR")).join("../../out/lib");
    let directory = match std::env::var_os("GIX_CONFIG_LIBRARY") {
        Some(directory) => PathBuf::from(directory),
        None if made.join(ARCHIVE).is_file() => made,
        None => installed().expect(
            "no libgix_config.a: `make lib` makes it, `make install-lib` installs it, GIX_CONFIG_LIBRARY names its directory",
        ),
    };
    println!(
        "cargo:rerun-if-changed={}",
        directory.join(ARCHIVE).display()
    );
    println!("cargo:rustc-link-search=native={}", directory.display());
    println!("cargo:rustc-link-lib=static=gix_config");
}
