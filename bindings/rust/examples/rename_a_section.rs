//! A section gets another name; all else stays.
use gix_config::File;

fn main() -> Result<(), Box<dyn std::error::Error>> {
    let mut file = File::try_from("[old] ; mine\n\tk = 1\n")?;
    file.rename_section("old", None, "new", None)?;
    assert_eq!(file.to_string(), "[new] ; mine\n\tk = 1\n");
    assert!(file.rename_section("old", None, "new", None).is_err());
    Ok(())
}
