//! A path is read, and the shorthand at its front replaced.
use gix_config::path::interpolate::Context;
use gix_config::File;
use std::path::Path;

fn main() -> Result<(), Box<dyn std::error::Error>> {
    let file = File::try_from("[core]\n\thooksPath = ~/hooks\n")?;
    let path = file.path("core.hooksPath").expect("a path");
    assert_eq!(path.to_string(), "~/hooks");
    let context = Context {
        home_dir: Some(Path::new("/home/ada")),
        ..Context::default()
    };
    assert_eq!(path.interpolate(context)?, Path::new("/home/ada/hooks"));
    let path = file.path_by("Core", None, "HOOKSPATH").expect("a path");
    assert!(path.interpolate(Context::default()).is_err());
    assert!(file.path("core.none").is_none());
    Ok(())
}
