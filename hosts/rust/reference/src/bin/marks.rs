//! Prints what crates/marks must write: `cargo run -q --release --offline -p reference --bin marks > ../../crates/marks/stdout` in
//! hosts/rust.

fn main() {
    print!("{}", reference::marks_text::text());
}
