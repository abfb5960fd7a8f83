//! What crates/marks must write is the text that this implementation gives. This test needs no archive.

#[test]
fn stdout_of_marks() {
    let path = concat!(env!("CARGO_MANIFEST_DIR"), "/../../../crates/marks/stdout");
    assert_eq!(std::fs::read_to_string(path).unwrap(), reference::marks_text::text());
}
