//! Booleans and integers, and values that are neither.
use gix_config::File;

fn main() -> Result<(), Box<dyn std::error::Error>> {
    let file = File::try_from("[core]\n\tbare\n\tbig = 1k\n\tsize = two\n")?;
    assert_eq!(file.boolean("core.bare")?, Some(true));
    assert_eq!(file.integer("core.big")?, Some(1024));
    assert!(file.integer("core.size").is_err());
    assert_eq!(file.integer("core.none")?, None);
    Ok(())
}
