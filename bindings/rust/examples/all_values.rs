//! All values of a key, in order.
use gix_config::File;

fn main() -> Result<(), Box<dyn std::error::Error>> {
    let text = "[remote \"origin\"]\n\tfetch = +a\n[remote \"origin\"]\n\tfetch = +b\n";
    let file = File::try_from(text)?;
    let all = file.strings("remote.origin.fetch").expect("values");
    let all: Vec<_> = all.iter().map(|it| it.to_string()).collect();
    assert_eq!(all, ["+a", "+b"]);
    Ok(())
}
