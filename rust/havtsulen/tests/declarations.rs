//! The header, the wrapper and the proved source declare the same functions: names, order and types of all arguments.

mod common;

use std::collections::BTreeMap;

use common::repository_file;

/// The arguments of each function as C declares them, by its name.
type Declarations = BTreeMap<String, Vec<String>>;

/// The declarations of a text: each from `start` to `end`, its arguments in C by `in_c`.
fn declarations(
    text: &str,
    (start, end): (&str, &str),
    in_c: fn(&str) -> Vec<String>,
) -> Declarations {
    let declaration = |part: &str| {
        let (declared, _) = part.split_once(end).expect("a declaration has an end");
        let (name, arguments) = declared.split_once('(').expect("a function has arguments");
        let arguments = arguments.split(',').map(str::trim);
        let arguments = arguments.filter(|argument| !argument.is_empty());
        (name.to_string(), arguments.flat_map(in_c).collect())
    };
    text.split(start).skip(1).map(declaration).collect()
}

/// An argument of the header, with single spaces.
fn of_header(argument: &str) -> Vec<String> {
    let words: Vec<&str> = argument.split_whitespace().collect();
    vec![words.join(" ")]
}

/// An argument of the wrapper, `NAME: TYPE`.
fn of_wrapper(argument: &str) -> Vec<String> {
    let (name, kind) = argument.split_once(": ").unwrap();
    vec![match kind {
        "*const u8" => format!("const uint8_t *{name}"),
        "*mut u8" => format!("uint8_t *{name}"),
        "*const usize" => format!("const size_t *{name}"),
        "*mut usize" => format!("size_t *{name}"),
        "usize" => format!("size_t {name}"),
        _ => panic!("{argument}"),
    }]
}

/// An argument of the proved source; a slice is a pointer and a length.
fn of_source(argument: &str) -> Vec<String> {
    let (name, kind) = argument.split_once(": ").unwrap();
    let slice = |pointer: &str| vec![format!("{pointer}{name}"), format!("size_t {name}_length")];
    match kind {
        "&[u8]" => slice("const uint8_t *"),
        "&mut [u8]" => slice("uint8_t *"),
        "&[usize]" => slice("const size_t *"),
        "&mut [usize]" => slice("size_t *"),
        "usize" => vec![format!("size_t {name}")],
        _ => panic!("{argument}"),
    }
}

fn source() -> Declarations {
    ["files", "questions", "item_lists", "settings"]
        .iter()
        .flat_map(|module| {
            let text = repository_file(&format!("crates/havtsulen_c/src/{module}.rt"));
            let marks = ("#[unsafe(no_mangle)]\npub extern \"C\" fn ", ") -> usize\n");
            declarations(&text, marks, of_source)
        })
        .collect()
}

#[test]
fn the_header_declares_what_the_source_has() {
    let header = repository_file("include/havtsulen.h");
    let header = declarations(&header, ("\nsize_t ", ");"), of_header);
    assert_eq!(header.len(), 11);
    assert_eq!(header, source());
}

#[test]
fn the_wrapper_declares_what_the_source_has() {
    let wrapper = repository_file("rust/havtsulen/src/raw.rs");
    let wrapper = declarations(&wrapper, ("pub fn ", ") -> usize;"), of_wrapper);
    assert_eq!(wrapper.len(), 11);
    assert_eq!(wrapper, source());
}
