//! The refusal numbers: those of 01, and those that requests of 02 add. An
//! accepted answer carries 0.

pub const ACCEPTED: u8 = 0;
pub const ENDS_EARLY: u8 = 1;
pub const BYTE_NOT_ALLOWED: u8 = 2;
pub const BAD_GAP: u8 = 3;
pub const PAST_LAST_MONTH: u8 = 4;
pub const TOO_MANY_LEAPS: u8 = 5;
pub const AFTER_THE_END: u8 = 6;
pub const OUTPUT_TOO_SHORT: u8 = 7;
pub const BEFORE_1972: u8 = 8;
pub const NO_SUCH_INSTANT: u8 = 9;
pub const NOT_KNOWN: u8 = 10;
pub const NOT_WELL_FORMED: u8 = 11;
pub const CONTRADICTION: u8 = 16;
pub const NO_GAP: u8 = 17;
pub const NO_LINE: u8 = 20;
