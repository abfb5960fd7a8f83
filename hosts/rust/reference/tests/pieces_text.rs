//! What crates/pieces must write is the text that this implementation gives. This test needs no archive.

#[test]
fn stdout_of_pieces() {
    let path = concat!(env!("CARGO_MANIFEST_DIR"), "/../../../crates/pieces/stdout");
    assert_eq!(std::fs::read_to_string(path).unwrap(), reference::pieces_text::text());
}
