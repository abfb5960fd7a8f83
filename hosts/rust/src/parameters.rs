//! What calls take, by name: instances, step widths, steps and lengths. The names are the C header's, without its `WILBROGED_`.

/// The instance U-QUARK.
pub const U: u32 = 1;
/// The bytes of a state and of a digest of U.
pub const U_BYTES: usize = 17;
/// The widest step width of U, usually the fastest.
pub const U_WIDTH: u32 = 8;
/// The steps of U's permutation.
pub const U_STEPS: u32 = 544;

/// The instance D-QUARK.
pub const D: u32 = 2;
/// The bytes of a state and of a digest of D.
pub const D_BYTES: usize = 22;
/// The widest step width of D, usually the fastest.
pub const D_WIDTH: u32 = 8;
/// The steps of D's permutation.
pub const D_STEPS: u32 = 704;

/// The instance S-QUARK.
pub const S: u32 = 3;
/// The bytes of a state and of a digest of S.
pub const S_BYTES: usize = 32;
/// The widest step width of S, usually the fastest.
pub const S_WIDTH: u32 = 16;
/// The steps of S's permutation.
pub const S_STEPS: u32 = 1_024;

/// The value of the register L at the start of the permutation: all ones. It is the greatest.
pub const L_ALL_ONES: u32 = 1_023;

/// The bytes of a key.
pub const KEY_BYTES: usize = 16;
/// The bytes of a seal, a previous one too.
pub const SEAL_BYTES: usize = 17;
/// The bytes of a body.
pub const BODY_BYTES: usize = 23;
/// The bytes of a record: its body, then its seal.
pub const RECORD_BYTES: usize = 40;
/// The bytes of the longest journal, 1,600 records.
pub const LONGEST_JOURNAL_BYTES: usize = 64_000;
