//! The wrapper and include/mochaspit.h say the same: the texts of the refusals, the version, and the names of the calls.

use mochaspit::Refusal;

const HEADER: &str = include_str!("../../../include/mochaspit.h");
const SYS: &str = include_str!("../src/sys.rs");

#[test]
fn the_texts_of_the_refusals() {
    for number in 1..=13 {
        let text = Refusal { number, place: 0 }.reason();
        assert!(HEADER.contains(&format!(": return \"{text}\";")), "{text}");
    }
}

#[test]
fn the_version() {
    let version = concat!("#define MOCHASPIT_VERSION \"", env!("CARGO_PKG_VERSION"), "\"\n");
    assert!(HEADER.contains(version));
}

/// The name in a line that begins with one of these words and goes on to a bracket.
fn names(text: &'static str, words: &[&str]) -> Vec<&'static str> {
    let rest = |line: &'static str| words.iter().find_map(|word| line.strip_prefix(word));
    let name = |rest: &'static str| rest.split_once('(').map(|(name, _)| name.rsplit(' ').next().unwrap_or(name));
    let mut names: Vec<_> =
        text.lines().map(str::trim_start).filter_map(rest).filter_map(name).filter(|name| name.starts_with("mochaspit_")).collect();
    names.sort_unstable();
    names
}

/// The functions of the archive: those that the header declares and does not define.
#[test]
fn the_calls() {
    let declared = names(HEADER, &["mochaspit_", "size_t "]);
    assert_eq!(declared, names(SYS, &["path_call!(", "pub fn "]));
    assert!(declared.len() >= 27);
}
