//! One list, one version: what the crate, its README and the C header say of refusals is docs/refusals.txt, and the header has the crate's version.

use lichenoar::Refusal;
use std::collections::BTreeSet;

const LIST: &str = include_str!("../../../docs/refusals.txt");
const HEADER: &str = include_str!("../../c/lichenoar.h");
const README: &str = include_str!("../README.md");

struct Listed {
    number: u32,
    case: &'static str,
    words: &'static str,
    remedy: &'static str,
}

fn listed() -> Vec<Listed> {
    let read = |line: &'static str| {
        let fields: Vec<&str> = line.split(" | ").map(str::trim).collect();
        let [number, case, _, words, remedy] = fields[..] else { panic!("not five fields: {line}") };
        Listed { number: number.parse().unwrap(), case, words, remedy }
    };
    LIST.lines().filter(|l| !l.starts_with('#') && !l.trim().is_empty()).map(read).collect()
}

/// The words of a text, with one blank between them.
fn flat(text: &str) -> String {
    text.split_whitespace().collect::<Vec<_>>().join(" ")
}

#[test]
fn each_refusal_says_the_words_of_the_list() {
    let mut seen = BTreeSet::new();
    for l in listed() {
        let refusal = Refusal::from_number(l.number).unwrap();
        assert_eq!((refusal.number(), format!("{refusal:?}").as_str()), (l.number, l.case));
        assert_eq!((refusal.words(), refusal.remedy()), (l.words, l.remedy));
        assert_eq!(refusal.to_string(), format!("refusal {}: {}", l.number, l.words));
        seen.insert(l.number);
    }
    // and the crate knows no number beyond the list
    for number in 1..=1000 {
        let known = Refusal::from_number(number) != Some(Refusal::Other(number));
        assert_eq!(known, seen.contains(&number), "{number}");
    }
}

#[test]
fn a_number_beyond_the_list() {
    assert_eq!(Refusal::from_number(0), None);
    for number in [200, 255, u32::MAX] {
        let refusal = Refusal::from_number(number).unwrap();
        assert_eq!((refusal, refusal.number()), (Refusal::Other(number), number));
        assert_eq!(refusal.to_string(), format!("refusal {number}: not known here"));
    }
}

#[test]
fn a_refusal_is_an_error_and_can_be_copied_compared_and_hashed() {
    fn has<T: std::error::Error + Copy + Eq + std::hash::Hash + Send + Sync + 'static>(_: T) {}
    has(Refusal::Zero);
    let error: Box<dyn std::error::Error> = Box::new(Refusal::Zero);
    assert_eq!(error.downcast_ref::<Refusal>(), Some(&Refusal::Zero));
    assert_eq!(error.to_string(), "refusal 4: K of 0 is infinite");
}

#[test]
fn the_header_lists_each_refusal() {
    // the list is the lines of the first comment that begin with a number, each with what follows it up to the next
    let comment = HEADER.split("*/").next().unwrap();
    let begins = |line: &str| line.split_whitespace().next().is_some_and(|w| line.starts_with("     ") && w.bytes().all(|b| b.is_ascii_digit()));
    let mut items: Vec<String> = Vec::new();
    for line in comment.lines() {
        if begins(line) {
            items.push(flat(line));
        } else if let Some(item) = items.last_mut() {
            *item = flat(&format!("{item} {line}"));
        }
    }
    let mut want = vec!["0 answered".to_string()];
    want.extend(listed().iter().map(|l| format!("{} {}; {}", l.number, l.words, l.remedy)));
    assert_eq!(items, want);
}

#[test]
fn the_readme_lists_each_refusal() {
    let rows: Vec<&str> = README.lines().filter(|l| l.starts_with("| ") && l.as_bytes()[2].is_ascii_digit()).collect();
    let want: Vec<String> = listed().iter().map(|l| format!("| {} | `{}` | {} | {} |", l.number, l.case, l.words, l.remedy)).collect();
    assert_eq!(rows, want);
}

#[test]
fn the_manifest_of_the_feature_and_the_readme_have_the_version_of_the_crate() {
    const FEATURED: &str = include_str!("../num-complex/Cargo.toml");
    let line = concat!("version = \"", env!("CARGO_PKG_VERSION"), "\"");
    assert_eq!(FEATURED.lines().filter(|l| l.starts_with("version = ")).collect::<Vec<_>>(), [line]);
    assert!(README.lines().any(|l| l.ends_with(concat!("Version ", env!("CARGO_PKG_VERSION"), "."))));
}

#[test]
fn the_header_has_the_version_of_the_crate() {
    let defined = |name: &str| {
        let lines: Vec<&str> = HEADER.lines().filter(|l| l.starts_with(&format!("#define {name} "))).collect();
        assert_eq!(lines.len(), 1, "{name}");
        lines[0].split_whitespace().nth(2).unwrap()
    };
    assert_eq!(defined("LICHENOAR_VERSION"), concat!('"', env!("CARGO_PKG_VERSION"), '"'));
    assert_eq!(defined("LICHENOAR_VERSION_MAJOR"), env!("CARGO_PKG_VERSION_MAJOR"));
    assert_eq!(defined("LICHENOAR_VERSION_MINOR"), env!("CARGO_PKG_VERSION_MINOR"));
    assert_eq!(defined("LICHENOAR_VERSION_PATCH"), env!("CARGO_PKG_VERSION_PATCH"));
}

#[test]
fn every_function_of_the_archive_is_declared_and_explained() {
    const EXPORTS: &str = include_str!("../../../crates/capi_c/src/lib.rt");
    const RAW: &str = include_str!("../src/raw.rs");
    let name = |line: &'static str| line.strip_prefix("pub extern \"C\" fn ").map(|rest| rest.split('(').next().unwrap());
    let exports: BTreeSet<&str> = EXPORTS.lines().filter_map(name).collect();
    assert_eq!(exports.len(), 18);
    let lines: Vec<&str> = HEADER.lines().collect();
    let mut declared = BTreeSet::new();
    for (at, line) in lines.iter().enumerate() {
        let Some(word) = line.split_whitespace().find_map(|w| w.trim_start_matches('*').split_once('(')) else { continue };
        // the arguments may go on behind the line
        if line.ends_with([';', ',']) && line.starts_with(|c: char| c.is_ascii_lowercase()) {
            declared.insert(word.0);
            assert!(lines[at - 1].ends_with("*/"), "no comment above {}", word.0);
        }
    }
    assert_eq!(declared, exports);
    let raw: BTreeSet<&str> = RAW.lines().filter_map(|l| l.trim().strip_prefix("pub(crate) fn ")).map(|rest| rest.split('(').next().unwrap()).collect();
    assert_eq!(raw, exports);
}
