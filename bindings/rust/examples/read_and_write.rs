//! A text is read, and written as it was.
use gix_config::File;

fn main() -> Result<(), Box<dyn std::error::Error>> {
    let text = "# mine\n[core]\n\teditor = vi ; was ed\n";
    let file = File::try_from(text)?;
    let mut written = Vec::new();
    file.write_to(&mut written)?;
    assert_eq!(written, text.as_bytes());
    assert_eq!(file.to_string(), text);
    Ok(())
}
