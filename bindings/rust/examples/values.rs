//! The last value of a key counts; quotes and escapes are undone.
use gix_config::File;

fn main() -> Result<(), Box<dyn std::error::Error>> {
    let file = File::try_from("[core]\n\teditor = ed\n\teditor = \"vi -e\" ; mine\n")?;
    let editor = file.string("core.editor").expect("an editor");
    assert_eq!(editor.to_string(), "vi -e");
    let named = file.string_by("Core", None, "EDITOR").expect("an editor");
    assert_eq!(named, editor);
    assert!(file.string("core.pager").is_none());
    Ok(())
}
