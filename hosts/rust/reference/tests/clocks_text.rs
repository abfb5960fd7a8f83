//! What crates/clocks must write is the text that this implementation gives, and it is P of Appendix B. These tests need no archive.
use reference::{appendix_b, clocks_text};

#[test]
fn stdout_of_clocks() {
    let path = concat!(env!("CARGO_MANIFEST_DIR"), "/../../../crates/clocks/stdout");
    assert_eq!(std::fs::read_to_string(path).unwrap(), clocks_text::text());
}

/// Each table has a line for every eighth step from none to all. The first state is the paper's first, and the last its second.
#[test]
fn tables_from_state_to_state() {
    let text = clocks_text::text();
    let mut lines = text.lines();
    let (u, d, s) = (&appendix_b::U[..2], &appendix_b::D[..2], &appendix_b::S[..2]);
    for (name, all, states) in [("U-QUARK", 544, u), ("D-QUARK", 704, d), ("S-QUARK", 1_024, s)] {
        assert_eq!(lines.next(), Some(name));
        let rows: Vec<Vec<&str>> = lines.by_ref().take(all / 8 + 1).map(|line| line.split(' ').collect()).collect();
        assert_eq!(rows[0], ["0", "1111111111", states[0]]);
        assert_eq!(rows[1][1], "1100000001");
        assert_eq!(rows[all / 8][2], states[1]);
        for (row, count) in rows.iter().zip((0..).step_by(8)) {
            assert_eq!(row[0], count.to_string());
            assert_eq!((row[1].len(), row[2].len(), row.len()), (10, states[0].len(), 3));
        }
    }
    assert_eq!(lines.next(), None);
    assert!(text.ends_with('\n'));
}
