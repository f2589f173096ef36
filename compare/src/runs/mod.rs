//! The comparisons, a file for each part.

pub mod almanac_file;
pub mod almanac_programs;
pub mod arms;
pub mod civil;
pub mod day_input;
pub mod day_sheet;
pub mod days;
pub mod drift;
pub mod elements;
pub mod engraving;
pub mod find;
pub mod form_text;
pub mod general_search;
pub mod half_read;
pub mod host_search;
pub mod iso;
pub mod iso_text;
pub mod kept;
pub mod lent;
pub mod lines;
pub mod listings;
pub mod longitudes;
pub mod look;
pub mod month;
pub mod month_starts;
pub mod named_pages;
pub mod names;
pub mod page_text;
pub mod pairs;
pub mod parted;
pub mod planet_laws;
pub mod planets;
pub mod programs;
pub mod queries;
pub mod query_bytes;
pub mod reasons;
pub mod records;
pub mod remarks;
pub mod saka;
pub mod searches;
pub mod signs;
pub mod smudged;
pub mod span_input;
pub mod true_rates;
pub mod why;
pub mod worked;

use crate::reference::days::LAST_DAY;

/// The editions that there are.
pub const EDITIONS: [u32; 2] = [1, 2];

/// Numbers that are no editions; the low bytes of some are an edition's.
pub const NO_EDITIONS: [u32; 11] = [
    0,
    3,
    14,
    u32::MAX,
    257,
    258,
    65_537,
    65_538,
    1 << 31,
    (1 << 31) + 1,
    (1 << 31) + 2,
];

/// Numbers that are no days; the low bytes of some are those of a day.
pub const NO_DAYS: [u32; 8] = [
    LAST_DAY + 1,
    LAST_DAY + 2,
    0x0007_0000,
    0x0100_0000,
    0xFF00_0005,
    1 << 31,
    u32::MAX - 1,
    u32::MAX,
];

/// Numbers at and about the powers of two where a narrower type would wrap.
pub const WIDTH_EDGES: [u32; 13] = [
    255,
    256,
    257,
    32_767,
    32_768,
    65_535,
    65_536,
    65_537,
    i32::MAX as u32,
    1 << 31,
    (1 << 31) + 1,
    u32::MAX - 1,
    u32::MAX,
];
