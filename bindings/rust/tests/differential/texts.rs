//! The errors are those of the header: number, name and text.
use balanced::Error;

const HEADER: &str = include_str!("../../../../include/balanced.h");

/// The enumerator of a line `BALANCED_NAME = NUMBER, /* TEXT */`.
fn enumerator(line: &str) -> Option<(String, u8, String)> {
    let (name, rest) = line.trim().strip_prefix("BALANCED_")?.split_once(" = ")?;
    let (number, text) = rest.split_once("/* ")?;
    let number = number.trim().trim_end_matches(',').parse().ok()?;
    Some((name.to_lowercase(), number, text.strip_suffix(" */")?.to_string()))
}

#[test]
fn texts() {
    let header: Vec<_> = HEADER.lines().filter_map(enumerator).collect();
    let ours: Vec<_> = Error::ALL
        .iter()
        .map(|error| (error.name().to_string(), error.number(), error.text().to_string()))
        .collect();
    assert_eq!(header[0].1, 0);
    assert_eq!(header[1..], ours);
    for error in Error::ALL {
        assert_eq!(Error::from_number(error.number()), Some(error));
        assert_eq!(
            error.to_string(),
            format!("{} ({}): {}", error.name(), error.number(), error.text())
        );
    }
    assert_eq!((Error::from_number(0), Error::from_number(header.len() as u8)), (None, None));
}

#[test]
fn version() {
    assert!(HEADER.contains(&format!("#define BALANCED_VERSION \"{}\"\n", balanced::VERSION)));
}
