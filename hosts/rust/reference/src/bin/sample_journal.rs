//! Prints the sample journal: `cargo run -q --release --offline -p reference --bin sample_journal > ../../samples/journal.bin` in
//! hosts/rust.
use std::io::Write;

fn main() {
    std::io::stdout().write_all(&reference::sample::sample()).expect("standard output takes the journal");
}
