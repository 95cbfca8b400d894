//! Two files, one after the other: the later values count.
use gix_config::File;

fn main() -> Result<(), Box<dyn std::error::Error>> {
    let mut all = File::try_from("[core]\n\teditor = vi\n\tpager = less\n")?;
    all.append(File::try_from("[core]\n\teditor = emacs\n")?)?;
    let editor = all.string("core.editor").expect("an editor");
    assert_eq!(editor.to_string(), "emacs");
    assert_eq!(
        all.string("core.pager").expect("a pager").to_string(),
        "less"
    );
    assert_eq!(all.sections().count(), 2);
    Ok(())
}
