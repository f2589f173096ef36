//! How one search is compared, the host's or the bridge's: its answers, and every byte of lists of
//! many lengths.

use std::collections::BTreeSet;

use crate::checks::Checks;
use crate::reference::list::{first_after, list_after, result_for};
use crate::reference::refusal::Answer;
use crate::reference::search::Found;

use super::lent::Lent;

/// One input of a search, and the calls that take it.
pub trait SearchCalls {
    /// The names of the three calls: search, length, looked.
    const NAMES: [&'static str; 3];

    fn search(&self, list: &mut [u8]) -> u32;
    fn length(&self) -> u32;
    fn looked(&self) -> u32;
    /// The first days alone, as many as the list has entries; the host has no such call.
    fn list_first(&self, _list: &mut [u8]) -> Option<u32> {
        None
    }
    fn input(&self) -> String;
}

/// The lengths in bytes of lists of so many entries, each with tails of 0 to 3 bytes.
pub fn with_tails(entries: impl IntoIterator<Item = usize>) -> BTreeSet<usize> {
    let tails = |count| 4 * count..4 * count + 4;
    entries.into_iter().flat_map(tails).collect()
}

/// The lengths that tell one answer from another: no entry, one entry short of the need, exact, one
/// over, each with tails, and `most` entries.
pub fn list_lengths(matching: usize, most: usize) -> BTreeSet<usize> {
    let mut lengths = with_tails([0, matching.saturating_sub(1), matching, matching + 1]);
    lengths.insert(4 * most);
    lengths
}

/// A call that lists days, with a list of one length; `expected` are the days that it has to list.
pub fn compare_list(
    checks: &mut Checks,
    name: &str,
    input: impl Fn() -> String,
    call: impl FnOnce(&mut [u8]) -> u32,
    expected: Answer<&[u32]>,
    length: usize,
) {
    let mut list = Lent::new(length);
    let (result, after) = match expected {
        Ok(days) => (result_for(days, length / 4), list_after(days, list.bytes())),
        Err(refusal) => (refusal, list.bytes().to_vec()),
    };
    let came = call(list.bytes_mut());
    let input = || format!("{}, a list of {length} bytes", input());
    checks.same(name, input, result, came);
    list.compare(checks, name, input, &after);
}

/// The call that lists the first days, with a list of one length.
fn compare_first<C: SearchCalls>(
    checks: &mut Checks,
    calls: &C,
    expected: Answer<&[u32]>,
    length: usize,
) {
    let name = "bridge_list_first";
    let mut list = Lent::new(length);
    let (result, after) = match expected {
        Ok(days) => (0, first_after(days, list.bytes())),
        Err(refusal) => (refusal, list.bytes().to_vec()),
    };
    let Some(came) = calls.list_first(list.bytes_mut()) else {
        return;
    };
    let input = || format!("{}, a list of {length} bytes", calls.input());
    checks.same(name, input, result, came);
    list.compare(checks, name, input, &after);
}

/// All calls. `most` is the number of entries of the longest list.
pub fn compare<C: SearchCalls>(
    checks: &mut Checks,
    calls: &C,
    expected: &Answer<Found>,
    most: usize,
) {
    let matching = expected.as_ref().map_or(0, |found| found.matching.len());
    compare_lists(checks, calls, expected, list_lengths(matching, most));
}

/// All calls, the search with a list of each of these lengths in bytes, and the call for the first days
/// with every third of them.
pub fn compare_lists<C: SearchCalls>(
    checks: &mut Checks,
    calls: &C,
    expected: &Answer<Found>,
    lengths: BTreeSet<usize>,
) {
    let input = || calls.input();
    let (length, looked) = match expected {
        Ok(found) => (found.matching.len(), found.visited.len()),
        Err(_) => (0, 0),
    };
    let looked_came = calls.looked();
    checks.same(C::NAMES[1], input, length as u32, calls.length());
    checks.same(C::NAMES[2], input, looked as u32, looked_came);
    if let Ok(found) = expected {
        let none_missed = found.walk_misses_none();
        checks.same(
            "the walk comes to every fitting day",
            input,
            true,
            none_missed,
        );
        if let Some(limit) = found.limit {
            checks.at_most(C::NAMES[2], input, limit, looked_came);
        }
    }
    let days = expected.as_ref().map(|found| &found.matching[..]);
    let days = days.map_err(|refusal| *refusal);
    for (list_length, at) in lengths.into_iter().zip(0..) {
        let search = |list: &mut [u8]| calls.search(list);
        compare_list(checks, C::NAMES[0], input, search, days, list_length);
        if at % 3 == 0 {
            compare_first(checks, calls, days, list_length);
        }
    }
}
