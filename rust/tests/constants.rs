// Names with their numbers stand in c/thriftbell.h, in src/ and, as definitions, in the specs of the crates: this compares them. What no definition has, as a
// number's longest form, tests/records.rs meets.
mod texts;

use std::collections::BTreeMap;
use texts::{edited, file, Edit};

type Numbers = BTreeMap<String, u64>;

struct Texts {
    c: String,
    refusals: String,
    sections: String,
    limits: String,
}

fn all() -> Texts {
    Texts { c: file("c/thriftbell.h"), refusals: file("rust/src/refusal.rs"), sections: file("rust/src/section.rs"), limits: file("rust/src/limits.rs") }
}

// Each line that begins with a name, something between and a number: `    Name = 7, ..`
fn numbers(text: &str, before: &str, between: &str) -> Numbers {
    let line = |line: &str| {
        let (name, rest) = line.trim_start().strip_prefix(before)?.split_once(between)?;
        let number: String = rest.chars().take_while(|c| c.is_ascii_digit() || *c == '_').filter(|c| *c != '_').collect();
        Some((name.to_string(), number.parse().ok()?)).filter(|(name, _)| name.chars().all(|c| c.is_alphanumeric() || c == '_'))
    };
    let found: Vec<(String, u64)> = text.lines().filter_map(line).collect();
    let count = found.len();
    let all = Numbers::from_iter(found);
    assert_eq!(all.len(), count, "a name stands twice");
    all
}

// `StoreOver` as C has it: `STORE_OVER`.
fn shouted(name: &str) -> String {
    let words = name.char_indices().map(|(i, c)| if i > 0 && c.is_uppercase() { format!("_{c}") } else { c.to_uppercase().to_string() });
    words.collect()
}

fn in_c(t: &Texts) -> Numbers {
    numbers(&t.c, "THRIFTBELL_", " = ")
}

// By the names that C has.
fn in_rust(t: &Texts) -> Numbers {
    let mut all = numbers(&t.limits, "pub const ", ": usize = ");
    all.extend(numbers(&t.refusals, "", " = ").into_iter().map(|(name, n)| (shouted(&name), n)));
    all.extend(numbers(&t.sections, "", " = ").into_iter().map(|(name, n)| (format!("SECTION_{}", shouted(&name)), n)));
    all.insert("OK".into(), 0);
    all
}

// A name, and the file and the line that define it.
const DEFINED: [(&str, &str, &str); 12] = [
    ("MAX_STORE", "crates/frames/specs/Builder.antt", "store_most"),
    ("MAX_WORDS", "crates/texts/specs/Judge.antt", "words_most"),
    ("MAX_TEXT", "crates/texts/specs/Judge.antt", "text_most"),
    ("MAX_ITEM", "crates/texts/specs/Judge.antt", "item_most"),
    ("MAX_ORDER", "crates/sections/specs/Order.antt", "order_most"),
    ("MAX_LINE", "crates/hex_text/specs/Line.antt", "digits_most"),
    ("SECTION_TYPE", "crates/frames/specs/Ids.antt", "id_of Types"),
    ("SECTION_IMPORT", "crates/frames/specs/Ids.antt", "id_of Imports"),
    ("SECTION_TABLE", "crates/frames/specs/Ids.antt", "id_of Tables"),
    ("SECTION_ELEMENT", "crates/frames/specs/Ids.antt", "id_of Elements"),
    ("SECTION_DATA", "crates/frames/specs/Ids.antt", "id_of Data"),
    ("SECTION_DATA_COUNT", "crates/sections/specs/Section.antt", "data_count"),
];

fn defined(path: &str, name: &str) -> u64 {
    let text = file(path);
    let found: Vec<&str> = text.lines().filter_map(|l| l.strip_prefix(name)?.strip_prefix(" = ")).collect();
    assert_eq!(found.len(), 1, "{path}: {name}");
    found[0].parse().unwrap_or_else(|_| panic!("{path}: {name} is {}", found[0]))
}

#[test]
fn numbers_agree() {
    let t = all();
    let (c, rust) = (in_c(&t), in_rust(&t));
    let answers = 13;
    let sections = DEFINED.iter().filter(|(name, ..)| name.starts_with("SECTION_")).count();
    assert_eq!(c.len(), answers + sections + numbers(&t.limits, "pub const ", ": usize = ").len());
    assert_eq!(c, rust);
    for (name, path, definition) in DEFINED {
        assert_eq!(c[name], defined(path, definition), "{name}");
    }
}

const IN_C: &[Edit] = &[
    ("THRIFTBELL_BAD_TEXT = 3,", "THRIFTBELL_BAD_TEXT = 4,"),
    ("THRIFTBELL_BAD_NAME = 4,", "THRIFTBELL_BAD_UTF8 = 4,"),
    ("    THRIFTBELL_SECTION_TABLE = 4,\n", ""),
    ("THRIFTBELL_MAX_STORE = 16777216,", "THRIFTBELL_MAX_STORE = 16777215,"),
];

const IN_LIMITS: &[Edit] = &[("MAX_LINE: usize = 8_192", "MAX_LINE: usize = 4_096"), ("MAX_ORDER: usize = 32", "MAX_IDS: usize = 32")];

const IN_REFUSALS: &[Edit] = &[("StoreFull = 7", "StoreFull = 6"), ("BadLine = 12", "NoLine = 12")];

#[test]
fn wrong_numbers_are_seen() {
    for edit in IN_C {
        let t = all();
        assert_ne!(in_c(&Texts { c: edited(&t.c, edit), ..all() }), in_rust(&t), "{edit:?}");
    }
    for edit in IN_LIMITS {
        let t = all();
        assert_ne!(in_rust(&Texts { limits: edited(&t.limits, edit), ..all() }), in_c(&t), "{edit:?}");
    }
    for edit in IN_REFUSALS {
        let t = all();
        assert_ne!(in_rust(&Texts { refusals: edited(&t.refusals, edit), ..all() }), in_c(&t), "{edit:?}");
    }
}
