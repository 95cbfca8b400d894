//! A text that can't be read on is refused, with the line.
use gix_config::File;

fn main() -> Result<(), Box<dyn std::error::Error>> {
    let parsed = "[core]\n\tbare\n[core\n".parse::<File>();
    assert_eq!(
        parsed.expect_err("no text of configuration").line_number(),
        3
    );
    let mut file = File::try_from("[core]\n\tbare = maybe\n")?;
    assert!(file.boolean("core.bare").is_err());
    assert!(file.set_raw_value_by("core", None, "b re", "x").is_err());
    assert_eq!(file.to_string(), "[core]\n\tbare = maybe\n");
    Ok(())
}
