//! A value is set: its line stays as it is, but for the value.
use gix_config::File;

fn main() -> Result<(), Box<dyn std::error::Error>> {
    let mut file = File::try_from("[core]\n\teditor = vi ; was ed\n")?;
    let old = file.set_raw_value_by("core", None, "editor", "emacs -nw")?;
    assert_eq!(old.expect("an old value").to_string(), "vi");
    assert!(file
        .set_raw_value_by("user", None, "name", "Ada")?
        .is_none());
    let editor = file.string("core.editor").expect("an editor");
    assert_eq!(editor.to_string(), "emacs -nw");
    assert_eq!(file.string("user.name").expect("a name").to_string(), "Ada");
    Ok(())
}
