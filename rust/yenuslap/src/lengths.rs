//! The longest answers: an output of so many bytes is never refused as too short.

/// The bytes of the longest casebook.
pub const MOST_CASEBOOK: usize = 3825;
/// The bytes of the longest half run, 200 steps.
pub const MOST_HALF: usize = 401;
/// The bytes of the longest joint run, 200 steps.
pub const MOST_RUN: usize = 602;
/// The bytes of the largest quotient, 4,096 nodes.
pub const MOST_QUOTIENT: usize = 8192;
/// The bytes of the longest line of a sheet, its line feed included.
pub const MOST_LINE: usize = 16399;
/// The bytes of the longest table, 512 rows.
pub const MOST_TABLE: usize = 1537;
/// No Aldebaran text that is written has more bytes.
pub const MOST_TEXT: usize = 7696;
