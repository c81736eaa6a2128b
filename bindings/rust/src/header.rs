//! The C header and this crate say the same: functions, refusals, trees and the
//! places of a summary.

use std::fs;
use std::path::Path;

use crate::{raw, Reason, Tree, LONGEST_RECORD, MOST_POSTS, MOST_SEGMENTS, SOURCE_ENTRY};

fn text(path: &str) -> String {
    let path = Path::new(env!("CARGO_MANIFEST_DIR")).join(path);
    fs::read_to_string(&path).unwrap_or_else(|error| panic!("{}: {error}", path.display()))
}

/// The header without its comments.
fn header() -> String {
    let header = text("../c/droverboot.h");
    let mut code = String::new();
    for part in header.split("*/") {
        code += part.split("/*").next().unwrap_or_default();
    }
    code
}

/// The names and numbers of one of the header's enums.
fn header_enum(name: &str) -> Vec<(String, u32)> {
    let header = header();
    let (_, after) = header
        .split_once(&format!("enum {name} {{"))
        .expect("the header has it");
    let (inside, _) = after.split_once('}').expect("it ends");
    inside
        .split(',')
        .map(|item| {
            let (name, number) = item.split_once('=').expect("each has a number");
            let number = number.trim().parse().expect("a number");
            (name.trim().to_owned(), number)
        })
        .collect()
}

/// `PostCount` as the header writes it: `DROVER_POST_COUNT`.
fn in_c(name: &str) -> String {
    let mut written = "DROVER".to_owned();
    for letter in name.chars() {
        if letter.is_uppercase() {
            written.push('_');
        }
        written.push(letter.to_ascii_uppercase());
    }
    written
}

/// The declarations from `start` on up to a semicolon, each without white space
/// in it but single blanks.
fn declarations(code: &str, start: &str) -> Vec<String> {
    code.split(';')
        .filter_map(|item| item.rfind(start).map(|at| &item[at..]))
        .map(|item| item.split_whitespace().collect::<Vec<_>>().join(" "))
        .collect()
}

/// A parameter of C as Rust writes it.
fn parameter_in_rust(parameter: &str) -> String {
    let (kind, name) = parameter.rsplit_once(' ').expect("a kind and a name");
    let (pointer, name) = match name.strip_prefix('*') {
        Some(name) => (true, name),
        None => (false, name),
    };
    let (constant, kind) = match kind.strip_prefix("const ") {
        Some(kind) => (true, kind),
        None => (false, kind),
    };
    let kind = match kind {
        "uint8_t" => "u8",
        "uint16_t" => "u16",
        "uint32_t" => "u32",
        "uint64_t" => "u64",
        "int64_t" => "i64",
        "size_t" => "usize",
        other => panic!("{other} isn't known"),
    };
    match (pointer, constant) {
        (true, true) => format!("{name}: *const {kind}"),
        (true, false) => format!("{name}: *mut {kind}"),
        (false, _) => format!("{name}: {kind}"),
    }
}

/// A declaration of C as Rust writes it.
fn function_in_rust(declaration: &str) -> String {
    let (start, parameters) = declaration.split_once('(').expect("parameters");
    let name = start.strip_prefix("uint64_t ").expect("answers");
    let parameters: Vec<String> = parameters
        .trim_end_matches(')')
        .split(", ")
        .map(parameter_in_rust)
        .collect();
    format!("pub fn {name}({}) -> u64", parameters.join(", "))
}

#[test]
fn the_same_functions_with_the_same_parameters() {
    let in_header: Vec<String> = declarations(&header(), "uint64_t drover_")
        .iter()
        .map(|declaration| function_in_rust(declaration))
        .collect();
    let in_crate: Vec<String> = declarations(&text("src/raw.rs"), "pub fn drover_")
        .iter()
        .map(|item| item.replace("( ", "(").replace(", )", ")"))
        .collect();
    assert_eq!(in_header, in_crate);
    assert_eq!(in_crate.len(), 7);
}

#[test]
fn the_same_refusals() {
    let reasons: Vec<(String, u32)> = Reason::ALL
        .iter()
        .map(|reason| (in_c(&format!("{reason:?}")), reason.number()))
        .collect();
    assert_eq!(header_enum("drover_refusal"), reasons);
}

#[test]
fn the_same_trees_and_summary() {
    let trees: Vec<(String, u32)> = Tree::ALL
        .iter()
        .map(|tree| (in_c(&format!("{tree:?}")), tree.number()))
        .collect();
    assert_eq!(header_enum("drover_tree"), trees);
    let summary = header_enum("drover_summary");
    assert_eq!(
        summary.last(),
        Some(&("DROVER_SUMMARY".to_owned(), raw::SUMMARY as u32))
    );
}

#[test]
fn the_same_numbers() {
    let header = header();
    // 256 posts, 2,048 segments, and each number as long as it may be: a head of
    // 1 + 2 + 2 + 2 + 2 + 2 bytes, 255 ratios of 4 and segments of 7; five more
    // make a last segment of three four-byte numbers.
    assert_eq!(LONGEST_RECORD, 11 + 255 * 4 + MOST_SEGMENTS * 7);
    for (name, number) in [
        ("DROVER_MOST_POSTS", MOST_POSTS),
        ("DROVER_MOST_SEGMENTS", MOST_SEGMENTS),
        ("DROVER_SOURCE_ENTRY", SOURCE_ENTRY.into()),
        ("DROVER_LONGEST_RECORD", LONGEST_RECORD),
        ("DROVER_ENOUGH_BYTES", LONGEST_RECORD + 5),
    ] {
        let line = format!("#define {name} {number}\n");
        assert!(header.contains(&line), "{line}");
    }
}
