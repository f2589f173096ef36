//! Paper 01: the list that a caller lends for days, as the search writes them, and the days of sign
//! entries (paper 02, L10, and P2).

use super::refusal::LIST_TOO_SHORT;

/// "The lent room suffices if the list has at least as many places as the span has fitting days";
/// otherwise 7.
pub fn result_for(days: &[u32], entries: usize) -> u32 {
    if days.len() <= entries {
        0
    } else {
        LIST_TOO_SHORT
    }
}

/// A list of bytes after days were written from an entry on, which it has.
pub fn written_from(entry: usize, days: &[u32], before: &[u8]) -> Vec<u8> {
    let mut after = before.to_vec();
    for (entry, day) in after.chunks_exact_mut(4).skip(entry).zip(days) {
        entry.copy_from_slice(&day.to_le_bytes());
    }
    after
}

/// A list of bytes after the first of these days were written into it, as many as it has entries (P1).
pub fn first_after(days: &[u32], before: &[u8]) -> Vec<u8> {
    written_from(0, days, before)
}

/// A list of bytes after the call: "four a day, low byte first, and a tail under four bytes is no
/// place and stays as it was" ("What the table reckons"). "Lent memory is untouched by each refusal;
/// on acceptance the places behind the list stay as they were" ("Refusals by number").
pub fn list_after(days: &[u32], before: &[u8]) -> Vec<u8> {
    if result_for(days, before.len() / 4) == 0 {
        written_from(0, days, before)
    } else {
        before.to_vec()
    }
}
