//! Shared by tests: the step widths of an instance.

pub fn widths(instance: u32) -> &'static [u32] {
    if instance == 3 {
        &[1, 8, 16]
    } else {
        &[1, 8]
    }
}
