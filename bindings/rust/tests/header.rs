//! The crate says what include/tavitrozy.h says: version, numbers and their words, marks, limits.

use tavitrozy::{Refusal, limit, mark};

fn header() -> String {
    let path = concat!(env!("CARGO_MANIFEST_DIR"), "/../../include/tavitrozy.h");
    std::fs::read_to_string(path).unwrap_or_else(|error| panic!("{path}: {error}"))
}

/// What stands behind `#define NAME`: the value, and the comment's words.
fn defined(header: &str, name: &str) -> (String, String) {
    let name = format!("TAVITROZY_{name}");
    let is_it = |rest: &&str| rest.split_whitespace().next() == Some(&name);
    let found = header.lines().filter_map(|line| line.strip_prefix("#define ")).find(is_it);
    let rest = found.unwrap_or_else(|| panic!("tavitrozy.h does not define {name}"))[name.len()..].trim();
    let (value, comment) = rest.split_once("/*").unwrap_or((rest, ""));
    (value.trim().to_owned(), comment.trim().trim_end_matches("*/").trim().to_owned())
}

/// `TwoWords` as `TWO_WORDS`.
fn constant(name: &str) -> String {
    let spelled = |(i, c): (usize, char)| if i > 0 && c.is_uppercase() { format!("_{c}") } else { c.to_string() };
    name.chars().enumerate().map(spelled).collect::<String>().to_uppercase()
}

#[test]
fn the_version_is_the_headers() {
    let version = defined(&header(), "VERSION").0;
    assert_eq!(version.trim_matches('"'), env!("CARGO_PKG_VERSION"));
}

#[test]
fn refusals_have_the_headers_names_numbers_and_words() {
    let header = header();
    for refusal in Refusal::ALL {
        let (number, words) = defined(&header, &format!("REFUSED_{}", constant(&format!("{refusal:?}"))));
        assert_eq!(number, refusal.number().to_string(), "{refusal:?}");
        assert_eq!(refusal.to_string(), format!("{words} ({number})"));
    }
    let count = header.lines().filter(|line| line.starts_with("#define TAVITROZY_REFUSED_")).count();
    assert_eq!(count, Refusal::ALL.len());
}

#[test]
fn marks_and_limits_are_the_headers() {
    let header = header();
    let value = |name: &str| defined(&header, name).0;
    for (name, mark) in [("VALUE", mark::VALUE), ("BLOCK", mark::BLOCK), ("NONE", mark::NONE)] {
        assert_eq!(value(name), mark.to_string(), "{name}");
    }
    for (name, limit) in [
        ("CLIPS", limit::CLIPS),
        ("STARTS", limit::STARTS),
        ("KNOTS", limit::KNOTS),
        ("BLOCKS", limit::BLOCKS),
        ("SAMPLES", limit::SAMPLES),
        ("TEMPLATE_BYTES", limit::TEMPLATE_BYTES),
        ("NAME_BYTES", limit::NAME_BYTES),
        ("SETS", limit::SETS),
        ("SET_NAME_BYTES", limit::SET_NAME_BYTES),
        ("LISTED_NAMES", limit::LISTED_NAMES),
    ] {
        assert_eq!(value(&format!("MAX_{name}")), limit.to_string(), "{name}");
    }
    assert_eq!(value("MAX_TIME").parse(), Ok(limit::TIME));
}
