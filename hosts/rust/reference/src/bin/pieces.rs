//! Prints what crates/pieces must write: `cargo run -q --release --offline -p reference --bin pieces > ../../crates/pieces/stdout` in
//! hosts/rust.

fn main() {
    print!("{}", reference::pieces_text::text());
}
