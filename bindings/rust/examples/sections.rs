//! The sections of a file, with their names and values.
use gix_config::File;

fn main() -> Result<(), Box<dyn std::error::Error>> {
    let file = File::try_from("[core]\n\tbare\n[remote \"origin\"]\n\turl = a\n\turl = b\n")?;
    let mut told = Vec::new();
    for section in file.sections() {
        let header = section.header();
        let subsection = header.subsection_name().map(|it| it.to_string());
        told.push((
            header.name().to_string(),
            subsection,
            section.value_names().count(),
        ));
    }
    let origin = Some("origin".to_string());
    let wanted = [("core".into(), None, 1), ("remote".into(), origin, 2)];
    assert_eq!(told, wanted);
    let remote = file.sections().nth(1).expect("a section");
    assert_eq!(remote.value("url").expect("a url").to_string(), "b");
    assert!(remote.contains_value_name("URL"));
    Ok(())
}
