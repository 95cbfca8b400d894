//! Where files and sections come from, lookups in some sections, and their text.
use gix_config::{File, Source};

fn main() -> Result<(), Box<dyn std::error::Error>> {
    let file = File::try_from("[a]\n\tk = 1\n\tbare\n[b]\n[A]\n\tk = 2k\n")?;
    assert_eq!(file.meta().source, Source::Api);
    let section = file.section("a", None)?;
    assert_eq!(section.meta().source, Source::Api);
    assert_eq!((section.meta().level, &section.meta().path), (0, &None));
    assert!(section.contains_value_name("k") && !section.contains_value_name("bare"));
    assert_eq!(file.sections_by_name("a").expect("sections").count(), 2);
    assert!(file.section("c", None).is_err() && file.sections_by_name("c").is_none());

    let by_program = file.string_filter("a.k", |meta| meta.source == Source::Api);
    assert_eq!(by_program.expect("a value").to_string(), "2k");
    let of_user = file.string_filter("a.k", |meta| meta.source == Source::User);
    assert!(of_user.is_none());
    let all = file.strings_filter("a.k", |meta| meta.level == 0);
    assert_eq!(all.expect("values").len(), 2);
    let without_path = file.integer_filter("a.k", |meta| meta.path.is_none())?;
    assert_eq!(without_path, Some(2048));
    assert_eq!(file.boolean_filter("a.bare", |_| true)?, Some(true));
    assert_eq!(file.boolean_filter("a.bare", |_| false)?, None);

    let mut written = Vec::new();
    file.write_to_filter(&mut written, |section| section.header().name() == "b")?;
    assert_eq!(written, b"[b]\n");
    Ok(())
}
