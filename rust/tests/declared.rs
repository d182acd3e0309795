// Nothing checks declarations of another language's functions, so this does: the entries of crates/capi_c/src/lib.rt, the prototypes of c/thriftbell.h and the
// extern block of src/raw.rs are brought to one form and compared, entry by entry: order, names, types, constness and result.
mod texts;

use texts::{edited, file, Edit};

struct Texts {
    rattle: String,
    c: String,
    rust: String,
}

fn all() -> Texts {
    Texts { rattle: file("crates/capi_c/src/lib.rt"), c: file("c/thriftbell.h"), rust: file("rust/src/raw.rs") }
}

fn words(text: &str) -> String {
    text.split_whitespace().collect::<Vec<_>>().join(" ")
}

// What stands between two marks, and what is behind the second.
fn between<'a>(text: &'a str, open: &str, close: &str) -> Option<(&'a str, &'a str)> {
    text.split_once(open)?.1.split_once(close)
}

// `name(a: T, b: *const U) -> R`, of parameters that are in this form.
fn entry(name: &str, parameters: Vec<String>, result: &str) -> String {
    format!("{name}({}) -> {}", parameters.join(", "), words(result))
}

fn parts(parameters: &str) -> impl Iterator<Item = &str> {
    parameters.split(',').map(str::trim).filter(|p| !p.is_empty())
}

// A slice is a pointer and its length.
fn rattle_parameter(p: &str) -> String {
    let (name, ty) = p.split_once(": ").unwrap_or((p, "?"));
    let (constness, ty) = match (ty.strip_prefix("&mut "), ty.strip_prefix('&')) {
        (Some(ty), _) => ("*mut ", ty),
        (None, Some(ty)) => ("*const ", ty),
        _ => ("", ty),
    };
    match ty.strip_prefix('[').and_then(|t| t.strip_suffix(']')) {
        Some(of) => format!("{name}: {constness}{of}, {name}_len: usize"),
        None => format!("{name}: {constness}{ty}"),
    }
}

fn rattle_entries(mut text: &str) -> Vec<String> {
    let mut all = vec![];
    while let Some((head, rest)) = between(text, "#[unsafe(no_mangle)]\npub extern \"C\" fn ", "\n    ensures") {
        let (name, signature) = head.split_once('(').unwrap();
        let (parameters, result) = signature.rsplit_once(") -> ").unwrap();
        all.push(entry(name, parts(parameters).map(rattle_parameter).collect(), result));
        text = rest;
    }
    all
}

fn c_type(ty: &str) -> &str {
    match ty {
        "uint8_t" => "u8",
        "uint32_t" => "u32",
        "uint64_t" => "u64",
        "int32_t" => "i32",
        "int64_t" => "i64",
        "size_t" => "usize",
        other => other,
    }
}

fn c_parameter(p: &str) -> String {
    let (ty, name) = p.rsplit_once(' ').unwrap_or((p, "?"));
    let Some(name) = name.strip_prefix('*') else { return format!("{name}: {}", c_type(ty)) };
    match ty.strip_prefix("const ") {
        Some(ty) => format!("{name}: *const {}", c_type(ty)),
        None => format!("{name}: *mut {}", c_type(ty)),
    }
}

// A prototype is a line; comments and directives have none that ends so.
fn c_entries(text: &str) -> Vec<String> {
    let prototypes = text.lines().filter(|l| l.contains(" thriftbell_") && l.ends_with(");"));
    prototypes
        .map(|line| {
            let (head, parameters) = line.split_once('(').unwrap();
            let (result, name) = head.rsplit_once(' ').unwrap();
            entry(name, parts(parameters.strip_suffix(");").unwrap()).map(c_parameter).collect(), c_type(result))
        })
        .collect()
}

fn rust_entry(declaration: &str) -> String {
    let (name, signature) = declaration.split_once('(').unwrap_or((declaration, ") -> ?"));
    let (parameters, result) = signature.rsplit_once(") -> ").unwrap_or((signature, "()"));
    entry(name, parts(parameters).map(words).collect(), result)
}

fn rust_entries(text: &str) -> Vec<String> {
    let block = between(text, "extern \"C\" {\n", "\n}\n").expect("an extern block").0;
    let declarations = block.lines().map(str::trim).filter(|l| !l.starts_with("///"));
    declarations.map(|d| rust_entry(d.trim_start_matches("pub ").trim_start_matches("safe ").trim_start_matches("fn ").trim_end_matches(';'))).collect()
}

// The first entry that is not declared as it is, if there is one.
fn difference(t: &Texts) -> Option<String> {
    let right = rattle_entries(&t.rattle);
    for (file, found) in [("c/thriftbell.h", c_entries(&t.c)), ("rust/src/raw.rs", rust_entries(&t.rust))] {
        for i in 0..right.len().max(found.len()) {
            if right.get(i) != found.get(i) {
                return Some(format!("{file}, entry {i}:\n  is       {:?}\n  declared {:?}", right.get(i), found.get(i)));
            }
        }
    }
    None
}

#[test]
fn declarations_agree() {
    let t = all();
    let count = t.rattle.matches("extern \"C\" fn").count();
    assert!(count > 0 && count == rattle_entries(&t.rattle).len(), "an entry was not read");
    assert_eq!(difference(&t), None);
}

// Edits that make a declaration wrong or take it away.
const IN_C: &[Edit] = &[
    ("uint32_t thriftbell_check_expr(const uint8_t *s, size_t s_len);\n", ""),
    ("thriftbell_is_name(const uint8_t *s", "thriftbell_is_name(uint8_t *s"),
    ("thriftbell_decode_i32(const uint8_t *s, size_t s_len, size_t at, int32_t *value", "thriftbell_decode_i32(const uint8_t *s, size_t s_len, size_t at, uint32_t *value"),
    ("thriftbell_finish(size_t used", "thriftbell_finish(size_t *used"),
    ("size_t *words, size_t *taken", "size_t *taken, size_t *words"),
    ("bool thriftbell_is_name", "uint32_t thriftbell_is_name"),
    ("thriftbell_encode_u64(uint64_t v, uint8_t *out, size_t out_len", "thriftbell_encode_u64(uint64_t v, uint8_t *out"),
];

const IN_RUST: &[Edit] = &[
    ("    pub safe fn thriftbell_encoding_size(n: u32) -> usize;\n", ""),
    ("pub safe fn thriftbell_encoding_size(n: u32) -> usize", "pub safe fn thriftbell_encoding_size(n: u32) -> u32"),
    ("thriftbell_add(used: *mut usize, store: *mut u8", "thriftbell_add(used: *mut usize, store: *const u8"),
    ("thriftbell_i32_const(v: i32", "thriftbell_i32_const(v: i64"),
    ("pub fn thriftbell_finish(", "pub fn thriftbell_end("),
    ("order: *const u8, order_len: usize, count: u32", "count: u32, order: *const u8, order_len: usize"),
];

const IN_RATTLE: &[Edit] = &[
    ("pub extern \"C\" fn thriftbell_encoding_size(n: u32)", "pub extern \"C\" fn thriftbell_encoding_size(n: u64)"),
    ("    out: &mut [u32],", "    out: &[u32],"),
    ("    count: u32,\n", ""),
];

// Each is seen, and in the file that has it.
#[test]
fn wrong_declarations_are_seen() {
    for edit in IN_C {
        let t = all();
        assert!(difference(&Texts { c: edited(&t.c, edit), ..t }).is_some_and(|d| d.starts_with("c/")), "{edit:?}");
    }
    for edit in IN_RUST {
        let t = all();
        assert!(difference(&Texts { rust: edited(&t.rust, edit), ..t }).is_some_and(|d| d.starts_with("rust/")), "{edit:?}");
    }
    for edit in IN_RATTLE {
        let t = all();
        assert!(difference(&Texts { rattle: edited(&t.rattle, edit), ..t }).is_some(), "{edit:?}");
    }
}
