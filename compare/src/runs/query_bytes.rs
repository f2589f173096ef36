//! A query as the bridge takes it: 109 numbers of four bytes each, low byte first. They are first,
//! last; then for the weekdays "given" (0 is no, any other number yes) and the set, and so for tithi,
//! nakshatra and yoga; then for each body its first arc's "given", start and width; then the edition;
//! then for each body its second arc's "given", start and width; then karana's "given" and set; and
//! last for each true place its first arc's three numbers and its second arc's.

use crate::random::Random;
use crate::reference::search::{Arc, Query, KARANA};

/// Bytes of another length are refused with 3.
pub const QUERY_LENGTH: usize = 436;

/// "Given" and the numbers of a condition; where it isn't given the numbers are any.
fn encode_condition<const N: usize>(
    random: &mut Random,
    numbers: &mut Vec<u32>,
    condition: Option<[u32; N]>,
) {
    match condition {
        None => {
            numbers.push(0);
            numbers.extend([(); N].map(|()| random.number()));
        }
        Some(values) => {
            numbers.push(random.one_of(&[1, 1, 2, 256, 65_536, 1 << 31, u32::MAX]));
            numbers.extend(values);
        }
    }
}

fn encode_set(random: &mut Random, numbers: &mut Vec<u32>, set: Option<u32>) {
    encode_condition(random, numbers, set.map(|set| [set]));
}

fn encode_arc(random: &mut Random, numbers: &mut Vec<u32>, arc: Option<Arc>) {
    encode_condition(random, numbers, arc.map(|arc| [arc.start, arc.width]));
}

pub fn encode(random: &mut Random, query: &Query) -> Vec<u8> {
    let (mean, places) = query.arcs.split_at(9);
    let mut numbers = vec![query.first, query.last];
    for set in &query.sets[..KARANA] {
        encode_set(random, &mut numbers, *set);
    }
    for arcs in mean {
        encode_arc(random, &mut numbers, arcs.first);
    }
    numbers.push(query.edition);
    for arcs in mean {
        encode_arc(random, &mut numbers, arcs.second);
    }
    encode_set(random, &mut numbers, query.sets[KARANA]);
    for arc in places.iter().flat_map(|arcs| [arcs.first, arcs.second]) {
        encode_arc(random, &mut numbers, arc);
    }
    numbers.into_iter().flat_map(u32::to_le_bytes).collect()
}

/// Bytes of each other length up to twice the right one; the queries at their front are sound, or
/// have an edition that there isn't.
pub fn other_lengths(random: &mut Random) -> Vec<Vec<u8>> {
    let mut others = Vec::new();
    for edition in [1, 3] {
        let mut query = Query::without_conditions(0, 9);
        query.edition = edition;
        let bytes = encode(random, &query).repeat(2);
        let lengths = (0..=bytes.len()).filter(|length| *length != QUERY_LENGTH);
        others.extend(lengths.map(|length| bytes[..length].to_vec()));
    }
    others
}

/// The numbers of four bytes each, low byte first; a tail under four bytes is left out.
pub fn numbers(bytes: &[u8]) -> Vec<u32> {
    bytes
        .chunks_exact(4)
        .map(|word| u32::from_le_bytes([word[0], word[1], word[2], word[3]]))
        .collect()
}

/// The start and width of a body's first arc and of its second, as they stand in a query's bytes, given
/// or not.
pub fn arcs_in(bytes: &[u8], body: usize) -> [[u32; 2]; 2] {
    let numbers = numbers(bytes);
    let given = match body.checked_sub(9) {
        None => [10, 38].map(|first_body| first_body + 3 * body),
        Some(place) => [67, 70].map(|first_place| first_place + 6 * place),
    };
    given.map(|given| [numbers[given + 1], numbers[given + 2]])
}

/// A query's bytes for a message.
pub fn shown(bytes: &[u8]) -> String {
    let numbers = numbers(bytes);
    format!("a query of {} bytes: {numbers:?}", bytes.len())
}
