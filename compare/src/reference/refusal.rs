//! Paper 01, "Refusals by number"; and those of paper 02's requests.

pub const NO_SUCH_DATE: u32 = 1;
pub const OUT_OF_RANGE: u32 = 2;
pub const BAD_INPUT: u32 = 3;
pub const WEEKDAY_DISAGREES: u32 = 4;
pub const LAST_BEFORE_FIRST: u32 = 5;
pub const BAD_CONDITION: u32 = 6;
pub const LIST_TOO_SHORT: u32 = 7;
/// L4.
pub const NO_EXTRA_MONTH: u32 = 8;
/// L7.
pub const BAD_LENGTH: u32 = 9;
pub const BAD_CHECK: u32 = 10;
pub const BAD_INDEX: u32 = 11;
pub const BAD_BYTE: u32 = 12;
pub const BAD_DAY: u32 = 13;
/// L8.
pub const NO_SUCH_EDITION: u32 = 14;
/// L11.
pub const OTHER_FORM: u32 = 15;
/// L13.
pub const NO_SUCH_BODY: u32 = 16;

/// What a rule gives: its values, or the number of its refusal.
pub type Answer<T> = Result<T, u32>;

/// "Result 0 means accepted."
pub fn result_number<T>(answer: &Answer<T>) -> u32 {
    match answer {
        Ok(_) => 0,
        Err(refusal) => *refusal,
    }
}
