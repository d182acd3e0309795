// The repository's own files as texts, and edits of them that a test has to see.
const ROOT: &str = env!("THRIFTBELL");

pub fn file(path: &str) -> String {
    std::fs::read_to_string(format!("{ROOT}/{path}")).unwrap_or_else(|e| panic!("{path}: {e}"))
}

// What is there, and what stands there instead.
pub type Edit = (&'static str, &'static str);

pub fn edited(text: &str, (old, new): &Edit) -> String {
    assert_eq!(text.matches(old).count(), 1, "{old}");
    text.replacen(old, new, 1)
}
