//! Sections are made and removed.
use gix_config::File;

fn main() -> Result<(), Box<dyn std::error::Error>> {
    let mut file = File::try_from("[a]\n\tk = 1\n[b]\n")?;
    file.new_section("c", None)?;
    assert_eq!(file.to_string(), "[a]\n\tk = 1\n[b]\n[c]\n");
    assert!(file.remove_section("a", None).is_some());
    assert!(file.remove_section("a", None).is_none());
    assert_eq!(file.to_string(), "[b]\n[c]\n");
    Ok(())
}
