//! The sample journal of the project is the one that this implementation makes. This test needs no archive.
use reference::journal::report;
use reference::sample::sample;

#[test]
fn the_sample_that_is_shipped() {
    let path = concat!(env!("CARGO_MANIFEST_DIR"), "/../../../samples/journal.bin");
    assert_eq!(std::fs::read(path).unwrap(), sample());
    assert_eq!(report(&sample()), "accepted 5 365\n");
}
