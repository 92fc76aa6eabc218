//! The wrapper and the C side say the same: numbers, names, places, texts and sizes.

mod common;

use std::collections::BTreeMap;

use common::repository_file;
use havtsulen::Error;

const PREFIX: &str = "HAVTSULEN_";

/// A refusal as the enum of the header has it.
struct Refusal {
    name: String,
    number: usize,
    /// The first word of the comment behind it: `line`, `offset` or `0`.
    place: String,
}

/// The lines `HAVTSULEN_NAME = NUMBER, /* place .. */`.
fn header_refusals() -> Vec<Refusal> {
    let header = repository_file("include/havtsulen.h");
    let refusal = |line: &str| {
        let (name, rest) = line.trim().strip_prefix(PREFIX)?.split_once(" = ")?;
        let (number, comment) = rest.split_once("/*").unwrap_or((rest, ""));
        let place = comment.split_whitespace().next().unwrap_or("");
        Some(Refusal {
            name: name.to_string(),
            number: number.trim().trim_end_matches(',').parse().unwrap(),
            place: place.to_string(),
        })
    };
    header
        .lines()
        .filter_map(refusal)
        .filter(|refusal| refusal.number != 0)
        .collect()
}

/// The lines `#define HAVTSULEN_NAME NUMBER`.
fn header_constants() -> BTreeMap<String, usize> {
    let header = repository_file("include/havtsulen.h");
    let constant = |line: &str| {
        let (name, number) = line.strip_prefix("#define HAVTSULEN_")?.split_once(' ')?;
        Some((name.to_string(), number.trim().parse().unwrap()))
    };
    header.lines().filter_map(constant).collect()
}

/// The lines `case HAVTSULEN_NAME: return "TEXT";`.
fn c_texts() -> BTreeMap<String, String> {
    let source = repository_file("c/refusal_text.c");
    let text = |line: &str| {
        let (name, rest) = line
            .trim()
            .strip_prefix("case HAVTSULEN_")?
            .split_once(':')?;
        Some((name.to_string(), rest.split('"').nth(1)?.to_string()))
    };
    source.lines().filter_map(text).collect()
}

/// `NOT_UTF8` as a Rust name: `NotUtf8`.
fn rust_name(name: &str) -> String {
    let word = |word: &str| word[..1].to_string() + &word[1..].to_lowercase();
    name.split('_').map(word).collect()
}

#[test]
fn the_numbers_are_those_of_the_header() {
    let header: Vec<usize> = header_refusals()
        .iter()
        .map(|refusal| refusal.number)
        .collect();
    let wrapper: Vec<usize> = (0..1000).filter(|&n| Error::new(n, 0).is_some()).collect();
    assert_eq!(header.len(), 24);
    assert_eq!(header, wrapper);
}

#[test]
fn names_and_places_are_those_of_the_header() {
    for refusal in header_refusals() {
        let without = Error::new(refusal.number, 0).unwrap();
        assert_eq!((without.number(), without.place()), (refusal.number, 0));
        let name = rust_name(&refusal.name);
        match Error::new(refusal.number, 7) {
            Some(error) => {
                assert_eq!(
                    format!("{error:?}"),
                    format!("{name} {{ {}: 7 }}", refusal.place)
                );
                assert_eq!((error.number(), error.place()), (refusal.number, 7));
            }
            None => {
                assert_eq!(format!("{without:?}"), name);
                assert_eq!(refusal.place, "0");
            }
        }
    }
}

#[test]
fn the_texts_are_those_of_c() {
    let texts = c_texts();
    assert_eq!(texts.len(), 25, "the refusals, and the text for 0");
    for refusal in header_refusals() {
        let text = &texts[&refusal.name];
        let placed = Error::new(refusal.number, 7);
        let shown = placed
            .or(Error::new(refusal.number, 0))
            .unwrap()
            .to_string();
        match refusal.place.as_str() {
            "0" => assert_eq!(&shown, text),
            place => assert_eq!(shown, format!("{text}, {place} 7")),
        }
    }
}

#[test]
fn offset_0_is_shown_but_for_a_list_to_write() {
    let shown = |number| Error::new(number, 0).unwrap().to_string();
    assert_eq!(shown(24), "an escape has none of the known forms, offset 0");
    assert_eq!(shown(26), "there are more than 256 items");
}

/// The lines `NAME, .. = NUMBER, ..` of the example in Python.
fn python_constants() -> BTreeMap<String, usize> {
    let example = repository_file("examples/setting.py");
    let constants = |line: &str| {
        let (names, numbers) = line.split_once(" = ")?;
        let numbers: Result<Vec<usize>, _> = numbers.split(", ").map(str::parse).collect();
        let names = names.split(", ").map(str::to_string);
        Some(names.zip(numbers.ok()?).collect::<Vec<_>>())
    };
    example.lines().filter_map(constants).flatten().collect()
}

#[test]
fn the_constants_in_python_are_those_of_the_header() {
    let header = header_constants();
    let mut python = python_constants();
    python.retain(|name, _| !name.starts_with("STATUS_"));
    assert_eq!(python.len(), 8);
    for (name, number) in python {
        assert_eq!(header.get(&name), Some(&number), "{name}");
    }
}

#[test]
fn the_constants_are_those_of_the_header() {
    let wrapper = [
        ("ENTRY_NUMBERS", havtsulen::ENTRY_NUMBERS),
        ("FILE_BYTES", havtsulen::FILE_BYTES),
        ("FIRST", havtsulen::Which::First as usize),
        ("ITEM_BYTES", havtsulen::ITEM_BYTES),
        ("ITEM_ENDS", havtsulen::ITEM_ENDS),
        ("LAST", havtsulen::Which::Last as usize),
        ("NORMAL_BYTES", havtsulen::NORMAL_BYTES),
        ("REPORT_NUMBERS", havtsulen::REPORT_NUMBERS),
        ("SECTION_NUMBERS", havtsulen::SECTION_NUMBERS),
        ("STACK_BYTES", havtsulen::STACK_BYTES),
        ("TEXT_BYTES", havtsulen::TEXT_BYTES),
        ("WRITE_BYTES", havtsulen::WRITE_BYTES),
    ];
    let wrapper: BTreeMap<String, usize> = wrapper
        .into_iter()
        .map(|(name, number)| (name.to_string(), number))
        .collect();
    assert_eq!(header_constants(), wrapper);
}
