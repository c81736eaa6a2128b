//! The one table of refusals, in docs/RULES.md, against all that repeats it: the
//! C header, the bindings for Rust, the crates' code and the reference.
//!
//! Everything is read as text, so nothing has to be linked.

use std::collections::BTreeSet;
use std::fs;
use std::path::{Path, PathBuf};

use reference::worked::{net_a, two_posts};
use reference::{
    build, drawn_length, margin, moved, read, read_into, write_into, Refusal, Run, Segment, To,
    Tree,
};

/// The number of the table that nothing is refused with any more: drawn lengths
/// are rounded up.
const NO_LONGER_GIVEN: u32 = 16;

/// The numbers of the table: document 01's, and those of the requests that have
/// landed.
fn numbered() -> BTreeSet<u32> {
    (1..=20).chain([30]).collect()
}

/// Those that can be given.
fn given() -> BTreeSet<u32> {
    let mut numbers = numbered();
    numbers.remove(&NO_LONGER_GIVEN);
    numbers
}

/// The last number of document 02, which the crates' definitions have as the
/// greatest.
const GREATEST: u32 = 32;

/// A refusal as some text has it; its name in words, as `post count`.
#[derive(Debug, PartialEq, Eq)]
struct Row {
    number: u32,
    name: String,
    when: String,
    place: String,
}

/// The number with which a text begins.
fn leading_number(text: &str) -> Option<u32> {
    let end = text.find(|letter: char| !letter.is_ascii_digit());
    text[..end.unwrap_or(text.len())].parse().ok()
}

/// A text with single blanks for all its white space.
fn in_one_line(text: &str) -> String {
    text.split_whitespace().collect::<Vec<_>>().join(" ")
}

/// The rows of the table: its lines up to the first that is none.
fn in_table(rules: &str) -> Option<Vec<Row>> {
    let (_, table) = rules.split_once("| No. | Name | Given exactly when | Place |\n")?;
    let rows = table
        .lines()
        .skip(1)
        .take_while(|line| line.starts_with('|'));
    let row = |line: &str| {
        let cells = line.strip_prefix("| ")?.strip_suffix(" |")?;
        let [number, name, when, place] = cells.split(" | ").collect::<Vec<_>>()[..] else {
            return None;
        };
        Some(Row {
            number: number.parse().ok()?,
            name: name.to_owned(),
            when: when.to_owned(),
            place: place.to_owned(),
        })
    };
    rows.map(row).collect()
}

/// The rows of the header: before each constant, a comment with its words.
fn in_header(header: &str) -> Option<Vec<Row>> {
    let (_, after) = header.split_once("enum drover_refusal {")?;
    let (inside, _) = after.split_once("};")?;
    let row = |item: &str| {
        let (comment, constant) = item.split_once("*/")?;
        let comment = in_one_line(&comment.replace("\n     * ", " "));
        let (when, place) = comment.split_once("; place: ")?;
        let (name, number) = constant.split_once('=')?;
        let name = name.trim().strip_prefix("DROVER_")?;
        Some(Row {
            number: number.trim().trim_end_matches(',').parse().ok()?,
            name: name.to_lowercase().replace('_', " "),
            when: when.to_owned(),
            place: place.to_owned(),
        })
    };
    inside.split("/*").skip(1).map(row).collect()
}

/// The rows of the bindings for Rust; the place is the word for what it counts.
fn in_bindings(refusal: &str) -> Option<Vec<Row>> {
    let (_, after) = refusal.split_once("\nreasons! {\n")?;
    let (inside, _) = after.split_once("\n}")?;
    let row = |line: &str| {
        let (start, when) = line.trim().strip_suffix('"')?.split_once(" \"")?;
        let [number, name, place] = start.split(' ').collect::<Vec<_>>()[..] else {
            return None;
        };
        let mut words = String::new();
        for letter in name.chars() {
            if letter.is_uppercase() && !words.is_empty() {
                words.push(' ');
            }
            words.push(letter.to_ascii_lowercase());
        }
        Some(Row {
            number: number.parse().ok()?,
            name: words,
            when: when.to_owned(),
            place: place.to_owned(),
        })
    };
    inside.lines().map(row).collect()
}

/// The bindings' word for what a place of the table counts.
fn counted(place: &str) -> &'static str {
    match place {
        "0" => "Nothing",
        "0, or the post whose own ratio it is" => "Ratio",
        "the segment" => "Segment",
        "the lowest such post" => "Post",
        "the offset of that number" | "the offset of the first" => "Byte",
        "0, the second leg 1" | "0, the second leg 1, both together 2" => "Leg",
        _ => "no place that is known",
    }
}

/// The numbers that the crates' code gives: where a function that refuses is
/// called with one, in a field `number`, or by a constant after a comment that
/// begins with `Refusal`.
fn in_code(code: &str) -> BTreeSet<u32> {
    let mut numbers = BTreeSet::new();
    let mut named = false;
    for line in code.lines() {
        for (at, _) in line.match_indices("efus") {
            let call = line[at..].trim_start_matches(|c: char| c.is_alphanumeric() || c == '_');
            numbers.extend(call.strip_prefix('(').and_then(leading_number));
        }
        let field = line.split_once("number: ").map(|(_, value)| value);
        numbers.extend(field.and_then(leading_number));
        let constant = line.rsplit_once(" = ").filter(|_| named);
        numbers.extend(constant.and_then(|(_, value)| leading_number(value)));
        named = line.starts_with("// Refusal ");
    }
    numbers
}

/// The greatest number of a refusal, as the crates' definitions have it.
fn greatest_in_specs(specs: &str) -> Option<u32> {
    let (_, value) = specs.split_once("\nmost_number = ")?;
    leading_number(value)
}

/// All texts that say refusals.
#[derive(Clone)]
struct Texts {
    rules: String,
    header: String,
    bindings: String,
    code: String,
    specs: String,
}

impl Texts {
    fn shipped() -> Self {
        Texts {
            rules: text(&root().join("docs/RULES.md")),
            header: text(&root().join("bindings/c/droverboot.h")),
            bindings: text(&root().join("bindings/rust/src/refusal.rs")),
            code: crates_text("src", "rt"),
            specs: crates_text("specs", "antt"),
        }
    }

    /// The first thing in which a text differs from the table, if one does.
    fn difference(&self) -> Option<&'static str> {
        let Some(mut table) = in_table(&self.rules) else {
            return Some("the table has a row that can't be read");
        };
        if !table.iter().map(|row| row.number).eq(numbered()) {
            return Some("the table's numbers aren't those of the documents");
        }
        if in_code(&self.code) != given() {
            return Some("the crates' code gives other numbers");
        }
        if greatest_in_specs(&self.specs) != Some(GREATEST) {
            return Some("the crates' definitions have another greatest number");
        }
        if in_header(&self.header).as_ref() != Some(&table) {
            return Some("the header differs");
        }
        for row in &mut table {
            row.place = counted(&row.place).to_owned();
        }
        if in_bindings(&self.bindings) != Some(table) {
            return Some("the bindings for Rust differ");
        }
        None
    }
}

fn root() -> PathBuf {
    Path::new(env!("CARGO_MANIFEST_DIR")).join("../..")
}

fn text(path: &Path) -> String {
    fs::read_to_string(path).unwrap_or_else(|error| panic!("{}: {error}", path.display()))
}

fn listed(folder: &Path) -> Vec<PathBuf> {
    let entries = fs::read_dir(folder).into_iter().flatten();
    entries
        .map(|entry| entry.expect("readable").path())
        .collect()
}

/// The text of all files with this ending in this folder of every crate.
fn crates_text(folder: &str, ending: &str) -> String {
    let crates = listed(&root().join("crates"));
    let files = crates.iter().flat_map(|each| listed(&each.join(folder)));
    let files = files.filter(|file| file.extension().is_some_and(|end| end == ending));
    files.map(|file| text(&file)).collect()
}

#[test]
fn all_repeat_the_table() {
    assert_eq!(Texts::shipped().difference(), None);
}

#[test]
fn whatever_differs_from_the_table_shows() {
    let shipped = Texts::shipped();
    let wrong = |choose: fn(&mut Texts) -> &mut String, old: &str, new: &str| {
        let mut texts = shipped.clone();
        let text = choose(&mut texts);
        assert!(text.contains(old), "{old:?} isn't there");
        *text = text.replace(old, new);
        assert!(texts.difference().is_some(), "{old:?} for {new:?}");
    };
    let row = "| 6 | same ends | both ends of a segment are the same | the segment |\n";
    let lists = "| 4 | segment count | there are more than 2,048 segments | 0 |";
    for (old, new) in [
        (row, ""),
        (row, "\n"),
        ("| 6 | same ends", "| 7 | same ends"),
        ("| 6 | same ends", "| 6 | equal ends"),
        ("| both ends of a segment are", "| both ends are"),
        ("are the same | the segment |", "are the same | 0 |"),
        ("both together 2 |", "both together 3 |"),
        (
            "| 0, or the post whose own ratio it is |",
            "| 0, or the segment |",
        ),
        (lists, &format!("{lists}\n{lists}")),
        ("| 19 | no such", "| 20 | no such"),
        ("| 20 | other ratio", "| 21 | other ratio"),
        ("| 30 | same form", "| 31 | same form"),
        (
            "house p or q | the lowest such post |",
            "house p or q | 0 |",
        ),
    ] {
        wrong(|texts| &mut texts.rules, old, new);
    }
    for (old, new) in [
        ("DROVER_SAME_ENDS = 6", "DROVER_SAME_ENDS = 5"),
        ("DROVER_SAME_ENDS = 6", "DROVER_EQUAL_ENDS = 6"),
        ("    DROVER_SAME_ENDS = 6,\n", ""),
        ("isn't finite; place: 0", "isn't finite; place: 1"),
        ("above 256", "above 255"),
        ("DROVER_OTHER_RATIO = 20", "DROVER_OTHER_RATIO = 21"),
        ("DROVER_SAME_FORM = 30", "DROVER_SAME_FORM = 21"),
    ] {
        wrong(|texts| &mut texts.header, old, new);
    }
    for (old, new) in [
        ("    6 SameEnds", "    7 SameEnds"),
        ("    6 SameEnds", "    6 EqualEnds"),
        ("9 NotJoined Post", "9 NotJoined Segment"),
        ("3 Ratio Ratio", "3 Ratio Nothing"),
        ("is 0 or above 256", "is 0 or above 255"),
        ("    18 ShortRoom", "//  18 ShortRoom"),
        ("20 OtherRatio Post", "20 OtherRatio Nothing"),
        ("    30 SameForm", "    21 SameForm"),
    ] {
        wrong(|texts| &mut texts.bindings, old, new);
    }
    wrong(
        |texts| &mut texts.specs,
        "most_number = 32",
        "most_number = 30",
    );
    let with_code = |code: String| Texts {
        code,
        ..shipped.clone()
    };
    for more in [16, 21, 29, 31] {
        let one_more = format!("{}return refuse({more}, 0);\n", shipped.code);
        assert!(with_code(one_more).difference().is_some(), "{more}");
    }
    let few = shipped.code.replace("efus", "");
    assert!(with_code(few).difference().is_some());
}

#[test]
fn numbers_are_found_in_code() {
    let code = "return Answer::Refused(refuse_at(12, next));\n\
                refused(number, 1)\n\
                fn refuse(number: u32, place: u32)\n\
                Refusal { number: 18, place: 0 }\n\
                // Refusal 15: zero.\n\
                const ZERO: u32 = 15;\n\
                const MOST: u32 = 7;\n";
    assert_eq!(in_code(code), BTreeSet::from([12, 15, 18]));
}

/// For each number that is given something that the reference refuses with it,
/// and the place; where the place may be something else than 0, it is.
fn given_by_the_reference() -> Vec<(Option<Refusal>, u32)> {
    let record = |bytes: &[u8]| read(bytes).err();
    let legs = |first, second| drawn_length(Run::Corner(first, second)).err();
    let mut lists = [[0; 4], [0; 4], [0; 4]];
    let [lightest, shortest, between] = &mut lists;
    let short_list = build(&net_a((1, 1)), lightest, &mut shortest[..3], between);
    vec![
        (record(&[0, 0, 0, 1, 1, 0]), 0),
        (record(&[4, 4, 1, 1, 0]), 0),
        (record(&[0, 3, 0, 1, 1, 0, 1, 1, 1, 0]), 2),
        (record(&[4, 0, 1, 1, 129, 16]), 0),
        (record(&[4, 0, 1, 1, 2, 0, 3, 1, 0, 4, 1]), 1),
        (record(&[4, 0, 1, 1, 2, 0, 3, 1, 2, 2, 1]), 1),
        (record(&[4, 0, 1, 1, 2, 0, 3, 1, 1, 2, 0]), 1),
        (short_list.err(), 0),
        (
            margin(
                &read(&[4, 1, 1, 1, 1, 0, 1, 5]).expect("good"),
                1,
                Tree::Lightest,
            )
            .err(),
            2,
        ),
        (record(&[4, 0, 1]), 3),
        (record(&[4, 128, 0]), 1),
        (record(&[1, 0, 1, 1, 0, 9]), 5),
        (legs(1.0, f64::NAN), 1),
        (legs(1.0, -1.0), 1),
        (legs(1.0, -0.0), 1),
        (legs(65_535.937_5, 0.0625), 2),
        (write_into(&two_posts(), &mut [0; 8]).err(), 0),
        (margin(&two_posts(), 2, Tree::Between).err(), 0),
        (moved(&[0, 3, 0, 1, 1, 0, 1, 1, 2, 2], To::First).err(), 2),
        (moved(&[1, 0, 1, 1, 0], To::First).err(), 0),
    ]
}

#[test]
fn the_reference_gives_each_number_at_a_place_of_the_table() {
    let mut table = in_table(&Texts::shipped().rules).expect("a table");
    let given = given_by_the_reference();
    table.retain(|row| row.number != NO_LONGER_GIVEN);
    assert_eq!(table.len(), given.len());
    for (row, (refusal, place)) in table.iter().zip(given) {
        let number = row.number;
        assert_eq!(refusal, Some(Refusal { number, place }), "{row:?}");
        assert_eq!(counted(&row.place) == "Nothing", place == 0, "{row:?}");
    }
    // 3 of the house ratio, and 8 of each list that reading is lent.
    let house = read(&[4, 0, 1, 0, 0]);
    assert_eq!(house.err(), Some(Refusal::new(3, 0)));
    for [p, q, segments] in [[1, 2, 1], [2, 1, 1], [2, 2, 0]] {
        let mut segments = vec![Segment::new(7, 7, 7); segments];
        let no_room = read_into(
            &[2, 0, 1, 2, 1, 0, 1, 172, 2],
            &mut vec![7; p],
            &mut vec![7; q],
            &mut segments,
        );
        assert_eq!(no_room.err(), Some(Refusal::new(8, 0)));
    }
}
