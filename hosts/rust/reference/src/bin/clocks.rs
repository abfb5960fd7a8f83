//! Prints what crates/clocks must write: `cargo run -q --release --offline -p reference --bin clocks > ../../crates/clocks/stdout` in
//! hosts/rust.

fn main() {
    print!("{}", reference::clocks_text::text());
}
