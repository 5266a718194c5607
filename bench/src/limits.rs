//! Limits and sizes, by docs/RULES.md and `include/relay.h`, for all of the bench.

pub const VARIABLES: usize = 64;
pub const RECORDS: usize = 8_192;
pub const ROOTS: usize = 64;
pub const LOG_RECORDS: usize = 4_096;
/// The most variables that Count counts by.
pub const COUNTED: usize = 52;

/// Bytes of a table record, of a root and of a log record.
pub const RECORD_SIZE: usize = 8;
pub const ROOT_SIZE: usize = 2;
pub const LOG_RECORD_SIZE: usize = 16;

/// How many numbers the longest answer has.
pub const NUMBERS: usize = 6;

/// The variable of a free record.
pub const FREE: u8 = 255;
/// Byte 0 of the log's seal while a swap is being made.
pub const SEALED: u8 = 0xA5;
