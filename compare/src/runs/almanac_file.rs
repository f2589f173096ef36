//! Almanac files: spans written whole and block by block into lent bytes, and files read, sound ones and
//! such as have every kind of fault.

use crate::calls::*;
use crate::checks::Checks;
use crate::random::Random;
use crate::reference::almanac::Almanac;
use crate::reference::almanac_file::{
    check, length, read, seal, told, written, written_block, Refused, BLOCK, CHECK, FIRST_PLACE,
    PLACE, PLACES,
};
use crate::reference::days::{LAST_CYCLE, LAST_DAY};
use crate::reference::list::list_after;
use crate::reference::refusal::{
    Answer, BAD_BYTE, BAD_CHECK, BAD_DAY, BAD_INDEX, BAD_LENGTH, LIST_TOO_SHORT,
};

use super::lent::Lent;
use super::queries::{random_span, Span, REFUSED_SPANS};
use super::searches::with_tails;
use super::{NO_DAYS, WIDTH_EDGES};

/// The result of a call that writes these bytes, and its memory afterwards.
fn expected_writing(bytes: &Answer<Vec<u8>>, before: &[u8]) -> (u32, Vec<u8>) {
    let mut after = before.to_vec();
    match bytes {
        Ok(bytes) if bytes.len() <= before.len() => {
            after[..bytes.len()].copy_from_slice(bytes);
            (0, after)
        }
        Ok(_) => (LIST_TOO_SHORT, after),
        Err(refusal) => (*refusal, after),
    }
}

/// A span's file into lent bytes of each of these lengths.
fn compare_writing(
    checks: &mut Checks,
    span: Span,
    file: &Answer<Vec<u8>>,
    lengths: impl IntoIterator<Item = usize>,
) {
    let (first, last) = span;
    let input = || format!("{span:?}");
    let need = length(span).map_or(0, |length| length as u32);
    let came = graha_almanac_bytes(first, last);
    checks.same("graha_almanac_bytes", input, need, came);
    for length in lengths {
        let mut lent = Lent::new(length);
        let (result, after) = expected_writing(file, lent.bytes());
        let to = lent.bytes_mut();
        let came = unsafe { graha_almanac_write(first, last, to.as_mut_ptr(), to.len()) };
        let input = || format!("{span:?}, {length} bytes");
        checks.same("graha_almanac_write", input, result, came);
        lent.compare(checks, "graha_almanac_write", input, &after);
    }
}

/// A block of a span into lent bytes of each of these lengths.
fn compare_block(
    checks: &mut Checks,
    almanac: &Almanac,
    span: Span,
    index: u32,
    lengths: impl IntoIterator<Item = usize>,
) {
    let block = written_block(almanac, span, index);
    for length in lengths {
        let mut lent = Lent::new(length);
        let (result, after) = expected_writing(&block, lent.bytes());
        let to = lent.bytes_mut();
        let came = unsafe { graha_almanac_block(span.0, span.1, index, to.as_mut_ptr(), to.len()) };
        let input = || format!("{span:?}, block {index} into {length} bytes");
        checks.same("graha_almanac_block", input, result, came);
        lent.compare(checks, "graha_almanac_block", input, &after);
    }
}

/// A span whole, in many lengths, and each of its blocks; and its file read.
fn compare_span(checks: &mut Checks, almanac: &Almanac, span: Span) {
    let file = written(almanac, span);
    let need = length(span).unwrap_or(BLOCK);
    let short = [0, 3, BLOCK - 1, need - BLOCK, need - 1];
    let enough = [need, need + 1, need + BLOCK];
    compare_writing(checks, span, &file, short.into_iter().chain(enough));
    let blocks = (need / BLOCK) as u32;
    for index in 0..=blocks + 1 {
        compare_block(checks, almanac, span, index, [0, 511, 512, 513]);
    }
    for index in WIDTH_EDGES {
        compare_block(checks, almanac, span, index, [512]);
    }
    if let Ok(file) = file {
        compare_file(checks, almanac, &file);
    }
}

/// What a file is, for a message: its length, and of its blocks the first bytes.
fn shown(file: &[u8]) -> String {
    let start = &file[..file.len().min(24)];
    format!("a file of {} bytes: {start:?}", file.len())
}

/// A file into lists of each of these lengths, whole and block by block.
fn compare_lists(
    checks: &mut Checks,
    days: &Result<Vec<u32>, Refused>,
    file: &[u8],
    lengths: impl IntoIterator<Item = usize>,
) {
    let lent = Lent::holding(file);
    let (from, file_length) = (lent.bytes().as_ptr(), file.len());
    let input = || shown(file);
    let came = unsafe { graha_almanac_days(from, file_length) };
    let (_, number) = told(days, 0);
    checks.same("graha_almanac_days", input, number, came);
    for length in lengths {
        let input = || format!("{}, a list of {length} bytes", shown(file));
        let mut list = Lent::new(length);
        let (result, number) = told(days, length / 4);
        let after = match days {
            Ok(days) => list_after(days, list.bytes()),
            Err(_) => list.bytes().to_vec(),
        };
        let to = list.bytes_mut();
        let came = unsafe { graha_almanac_read(from, file_length, to.as_mut_ptr(), to.len()) };
        checks.same("graha_almanac_read", input, result, came);
        list.compare(checks, "graha_almanac_read", input, &after);
        let name = "bridge_almanac_read_blocks";
        let mut list = Lent::new(length);
        let to = list.bytes_mut();
        let came =
            unsafe { bridge_almanac_read_blocks(from, file_length, to.as_mut_ptr(), to.len()) };
        let expected = u64::from(result) << 32 | u64::from(number);
        checks.same(name, input, expected, came);
        list.compare(checks, name, input, &after);
    }
    lent.compare(checks, "the calls that read a file", input, file);
}

/// A file into lists of no entry, one fewer than it has days, as many and one more, each with tails.
fn compare_file(checks: &mut Checks, almanac: &Almanac, file: &[u8]) {
    let days = read(almanac, file);
    let count = days.as_ref().map_or(3, Vec::len);
    let entries = [0, count - 1, count, count + 1];
    compare_lists(checks, &days, file, with_tails(entries));
}

/// A file that has a fault, or may have: into a list in which its days have room, and into one without
/// entries, since 7 comes last. What it has to be refused with is given where it is known here.
fn compare_faulty(checks: &mut Checks, almanac: &Almanac, file: &[u8], refusal: Option<u32>) {
    let days = read(almanac, file);
    if let Some(refusal) = refusal {
        let came = days.as_ref().map_err(|refused| refused.refusal);
        let came = came.map_or_else(|refusal| refusal, |_| 0);
        checks.same("the refusal", || shown(file), refusal, came);
    }
    let enough = 4 * PLACES * (file.len() / BLOCK + 1);
    compare_lists(checks, &days, file, [file.len() % 4, enough]);
}

fn put_number(file: &mut [u8], at: usize, number: u32) {
    file[at..at + 4].copy_from_slice(&number.to_le_bytes());
}

fn seal_all(file: &mut [u8]) {
    file.chunks_exact_mut(BLOCK).for_each(seal);
}

/// Where the place of a day stands in a file, counted from 0.
fn place_of(day: usize) -> usize {
    day / PLACES * BLOCK + FIRST_PLACE + day % PLACES * PLACE
}

/// The reference by itself: the check once more, by adding up sums; the day of paper 01's worked case,
/// byte for byte; and a block refused with each byte of it changed in any way.
fn laws(checks: &mut Checks, almanac: &Almanac) {
    let file = written(almanac, (33_649, 33_649)).expect("a day");
    let input = || "day 33649".to_string();
    checks.same("its length", input, BLOCK, file.len());
    let numbers: Vec<u32> = file
        .chunks_exact(4)
        .map(|four| u32::from_le_bytes(four.try_into().expect("four bytes")))
        .collect();
    // "Mean Sun 123220, Moon 720622, apogee 1133683"; the day sheet has Sun and Moon.
    let front = [0, 1, 33_649, 123_220, 720_622, 1_133_683];
    checks.same("its first numbers", input, &front[..], &numbers[..6]);
    checks.same("its true Sun", input, 128_648, numbers[12]);
    checks.same("its true Moon", input, 737_042, numbers[13]);
    let limbs = &file[FIRST_PLACE + 48..FIRST_PLACE + PLACE];
    checks.same_bytes("its limbs", input, &[14, 15, 18, 7], limbs);
    let rest = &file[FIRST_PLACE + PLACE..CHECK];
    checks.same_bytes("the bytes behind it", input, &vec![0; rest.len()], rest);
    for (first, last) in [(0, 0), (33_649, 33_657), (401_591, 401_599)] {
        let file = written(almanac, (first, last)).expect("a span");
        let input = || format!("days {first} to {last}");
        let (mut behind, mut sum) = (0, 0);
        for byte in file[..CHECK].iter().rev() {
            behind += u32::from(*byte);
            sum += behind;
        }
        checks.same("its check", input, sum, check(&file));
        for at in 0..BLOCK {
            for change in 1..=255 {
                let mut other = file.clone();
                other[at] ^= change;
                let refused = read(almanac, &other).is_err();
                let input = || format!("days {first} to {last}, byte {at} changed by {change}");
                checks.same("one changed byte", input, true, refused);
            }
        }
    }
}

/// Files of each number of days from 1 to 40, at both ends of the table, at turns of cycles and anywhere.
fn short_spans(checks: &mut Checks, almanac: &Almanac, random: &mut Random) {
    for days in 1..=40 {
        let turn = 4016 * random.between(1, LAST_CYCLE);
        let firsts = [
            0,
            LAST_DAY + 1 - days,
            turn - random.between(0, days),
            random.below(LAST_DAY + 1 - days),
        ];
        for first in firsts {
            compare_span(checks, almanac, (first, first + days - 1));
        }
    }
}

/// Random spans; and refused ones, with numbers that are no days first, last and both.
fn other_spans(checks: &mut Checks, almanac: &Almanac, random: &mut Random) {
    for _ in 0..40 {
        compare_span(checks, almanac, random_span(random, 300));
    }
    for _ in 0..10 {
        let span = random_span(random, 6000);
        let file = written(almanac, span);
        let need = length(span).expect("a sound span");
        compare_writing(checks, span, &file, [need - 1, need, need + 700]);
        let index = random.below((need / BLOCK) as u32);
        compare_block(checks, almanac, span, index, [512]);
        let file = file.expect("a sound span");
        let list = 4 * (span.1 - span.0 + 1) as usize;
        compare_lists(checks, &read(almanac, &file), &file, [list - 1, list]);
    }
    let ends: Vec<u32> = [0, 5, LAST_DAY].into_iter().chain(NO_DAYS).collect();
    let pairs = ends
        .iter()
        .flat_map(|first| ends.iter().map(|last| (*first, *last)));
    let bad = pairs.filter(|(first, last)| first > last || *last > LAST_DAY);
    for span in bad.chain(REFUSED_SPANS) {
        let file = written(almanac, span);
        compare_writing(checks, span, &file, [0, 511, 512, 2000]);
        for index in [0, 1, 44_622, 44_623, u32::MAX] {
            compare_block(checks, almanac, span, index, [0, 511, 512]);
        }
    }
}

/// The whole table: its file, read with a list that just suffices; with its last block cut off, with a
/// byte less and more, and with a fault in its last block, whole and block by block.
fn whole_table(checks: &mut Checks, almanac: &Almanac) {
    let span = (0, LAST_DAY);
    let file = written(almanac, span);
    let need = length(span).expect("a sound span");
    checks.same(
        "its blocks",
        || "all days".to_string(),
        44_623 * BLOCK,
        need,
    );
    compare_writing(checks, span, &file, [need - 1, need]);
    for index in [0, 1, 22_311, 44_621, 44_622, 44_623] {
        compare_block(checks, almanac, span, index, [512]);
    }
    let mut file = file.expect("a sound span");
    let list = 4 * (LAST_DAY as usize + 1);
    let by_blocks = |checks: &mut Checks, file: &[u8], length: usize| {
        let days = read(almanac, file);
        let (result, number) = told(&days, length / 4);
        let mut list = Lent::new(length);
        let after = match &days {
            Ok(days) => list_after(days, list.bytes()),
            Err(_) => list.bytes().to_vec(),
        };
        let to = list.bytes_mut();
        let (from, file_length) = (file.as_ptr(), file.len());
        let came =
            unsafe { bridge_almanac_read_blocks(from, file_length, to.as_mut_ptr(), to.len()) };
        let input = || format!("{}, a list of {length} bytes", shown(file));
        let expected = u64::from(result) << 32 | u64::from(number);
        checks.same("bridge_almanac_read_blocks", input, expected, came);
        list.compare(checks, "bridge_almanac_read_blocks", input, &after);
    };
    compare_lists(checks, &read(almanac, &file), &file, [list]);
    by_blocks(checks, &file, list + 3);
    by_blocks(checks, &file, list - 1);
    by_blocks(checks, &file[..need - BLOCK], list);
    by_blocks(checks, &file[..need - 1], list);
    let last = need - BLOCK;
    file[last + FIRST_PLACE] ^= 1;
    by_blocks(checks, &file, list);
    seal(&mut file[last..]);
    by_blocks(checks, &file, list);
    // A day more than the table has: there is a place for it.
    file[last + FIRST_PLACE] ^= 1;
    for block in file.chunks_exact_mut(BLOCK) {
        put_number(block, 4, LAST_DAY + 2);
    }
    seal_all(&mut file);
    by_blocks(checks, &file, list + 4);
}

/// Each byte of a file changed, by one bit, by any and to its ends; as it then stands, and sealed again.
fn each_byte(checks: &mut Checks, almanac: &Almanac, random: &mut Random, span: Span) {
    let file = written(almanac, span).expect("a sound span");
    for at in 0..file.len() {
        let bit = 1 << random.below(8);
        let any = random.between(1, 255) as u8;
        for byte in [
            file[at] ^ bit,
            file[at] ^ any,
            0,
            255,
            file[at].wrapping_add(1),
        ] {
            if byte == file[at] {
                continue;
            }
            let mut changed = file.clone();
            changed[at] = byte;
            let of_length = (4..8).contains(&at);
            let refusal = (!of_length).then_some(BAD_CHECK);
            compare_faulty(checks, almanac, &changed, refusal);
            seal_all(&mut changed);
            let count = (span.1 - span.0 + 1) as usize;
            let (block, within) = (at / BLOCK, at % BLOCK);
            let used = FIRST_PLACE + PLACE * (count - PLACES * block).min(PLACES);
            // A first day that is another one, or the count of the file, may make the fault a later one.
            let refusal = match within {
                CHECK.. => Some(0),
                _ if within >= used => Some(BAD_BYTE),
                FIRST_PLACE.. => Some(BAD_DAY),
                _ if of_length => None,
                _ => Some(BAD_INDEX),
            };
            compare_faulty(checks, almanac, &changed, refusal);
        }
    }
}

/// A file cut at each length, and with bytes behind it.
fn cut(checks: &mut Checks, almanac: &Almanac, span: Span) {
    let file = written(almanac, span).expect("a sound span");
    for length in 0..file.len() {
        compare_faulty(checks, almanac, &file[..length], Some(BAD_LENGTH));
    }
    for more in [1, 2, 4, 52, 508, 511, 512, 513, 1024] {
        let longer = [&file[..], &vec![0; more]].concat();
        compare_faulty(checks, almanac, &longer, Some(BAD_LENGTH));
    }
}

/// Blocks swapped, repeated, left out and taken from another file, as they are and with the index that
/// belongs there; always sealed.
fn moved_blocks(checks: &mut Checks, almanac: &Almanac, first: u32) {
    let file = written(almanac, (first, first + 29)).expect("a sound span");
    let other = written(almanac, (first + 9, first + 38)).expect("a sound span");
    let blocks: Vec<&[u8]> = file.chunks(BLOCK).chain(other.chunks(BLOCK)).collect();
    let all = 0..blocks.len();
    let fours = all.clone().flat_map(|a| {
        let all = all.clone();
        all.clone()
            .flat_map(move |b| all.clone().map(move |c| [a, b, c]))
    });
    for [a, b, c] in fours {
        for last in [3, 7] {
            let mut made = [blocks[a], blocks[b], blocks[c], blocks[last]].concat();
            compare_faulty(checks, almanac, &made, None);
            for (block, index) in made.chunks_exact_mut(BLOCK).zip(0..) {
                put_number(block, 0, index);
            }
            seal_all(&mut made);
            compare_faulty(checks, almanac, &made, None);
        }
    }
    for count in 1..=6 {
        let repeated = blocks[0].repeat(count);
        compare_faulty(checks, almanac, &repeated, None);
    }
    for left_out in 0..4 {
        let kept = (0..4).filter(|at| *at != left_out);
        let mut made: Vec<u8> = kept.flat_map(|at| blocks[at].to_vec()).collect();
        compare_faulty(checks, almanac, &made, Some(BAD_LENGTH));
        for (block, index) in made.chunks_exact_mut(BLOCK).zip(0..) {
            put_number(block, 0, index);
            put_number(block, 4, 27);
        }
        seal_all(&mut made);
        compare_faulty(checks, almanac, &made, None);
    }
}

/// Counts that the length does not fit, some of which make it fit where a product wraps: in the first
/// block, and in all of them.
fn counts(checks: &mut Checks, almanac: &Almanac) {
    for days in [1, 8, 9, 10, 18, 20] {
        let file = written(almanac, (1000, 999 + days)).expect("a sound span");
        let wraps = [1 << 23, 1 << 24, 1 << 31, 1 << 22, 477_218_589];
        let mut counts = Vec::from_iter(wraps.map(|blocks: u32| blocks.wrapping_mul(9)));
        counts.extend(wraps.map(|blocks| blocks.wrapping_mul(9).wrapping_add(days)));
        counts.extend((0..40).chain(WIDTH_EDGES));
        counts.extend((u32::MAX - 24..=u32::MAX).chain([75_497_472, 401_600, 401_601]));
        for count in counts {
            let mut first = file.clone();
            put_number(&mut first, 4, count);
            compare_faulty(checks, almanac, &first, None);
            seal_all(&mut first);
            compare_faulty(checks, almanac, &first, None);
            for block in first.chunks_exact_mut(BLOCK) {
                put_number(block, 4, count);
            }
            seal_all(&mut first);
            compare_faulty(checks, almanac, &first, None);
        }
    }
}

/// Days that are not the one after: each place with another day's bytes, all its own; the day's number
/// alone another; the fields of the day before; edition 2's Moon; files that begin on any number, and
/// that go on behind the last day.
fn other_days(checks: &mut Checks, almanac: &Almanac, random: &mut Random) {
    for (first, days) in [(0, 20), (145_195, 20), (LAST_DAY - 19, 20), (4010, 11)] {
        let file = written(almanac, (first, first + days - 1)).expect("a sound span");
        for day in 0..days as usize {
            let at = place_of(day);
            let mut others = vec![
                0,
                1,
                first,
                first + days,
                LAST_DAY,
                random.below(LAST_DAY + 1),
            ];
            others.extend([
                first + day as u32 + 1,
                (first + day as u32).saturating_sub(1),
            ]);
            for other in others {
                let own = written(almanac, (other, other));
                let Ok(own) = own else { continue };
                let mut changed = file.clone();
                let place = &own[FIRST_PLACE..FIRST_PLACE + PLACE];
                changed[at..at + PLACE].copy_from_slice(place);
                seal_all(&mut changed);
                compare_faulty(checks, almanac, &changed, None);
                // Its fields, and the number of the day that belongs there.
                put_number(&mut changed, at, first + day as u32);
                seal_all(&mut changed);
                compare_faulty(checks, almanac, &changed, None);
                // Its number, and the fields that belong there.
                let mut changed = file.clone();
                put_number(&mut changed, at, other);
                seal_all(&mut changed);
                compare_faulty(checks, almanac, &changed, None);
            }
            for number in NO_DAYS {
                let mut changed = file.clone();
                put_number(&mut changed, at, number);
                seal_all(&mut changed);
                compare_faulty(checks, almanac, &changed, Some(BAD_DAY));
            }
        }
    }
    for number in almanac.parted().iter().step_by(40) {
        let mut file = written(almanac, (*number, *number)).expect("a day");
        let second = almanac.elements(2, *number).expect("a day");
        put_number(&mut file, FIRST_PLACE + 44, second.moon);
        for (byte, limb) in file[FIRST_PLACE + 48..].iter_mut().zip(second.limbs()) {
            *byte = limb as u8;
        }
        seal(&mut file);
        compare_faulty(checks, almanac, &file, Some(BAD_DAY));
    }
    // The first days of a file may be sound and its last ones behind the table's.
    for days in 1..=12 {
        let mut file = written(almanac, (LAST_DAY + 1 - days, LAST_DAY)).expect("a span");
        for more in [1, 2, 9] {
            let count = days + more;
            file.resize((count as usize).div_ceil(PLACES) * BLOCK, 0);
            let mut wrong = file.clone();
            for (block, index) in wrong.chunks_exact_mut(BLOCK).zip(0..) {
                put_number(block, 0, index);
                put_number(block, 4, count);
            }
            for day in days..count {
                let at = place_of(day as usize);
                let before = wrong[place_of(day as usize - 1)..][..PLACE].to_vec();
                wrong[at..at + PLACE].copy_from_slice(&before);
                put_number(&mut wrong, at, LAST_DAY + 1 - days + day);
            }
            seal_all(&mut wrong);
            compare_faulty(checks, almanac, &wrong, Some(BAD_DAY));
        }
    }
}

/// What may be wrong with a block, by its refusal.
const KINDS: [u32; 4] = [BAD_CHECK, BAD_INDEX, BAD_BYTE, BAD_DAY];

/// Makes a fault of one kind in a block; sealed, but for the check's own. A fault that the block has
/// stays. A byte that should be zero is one of the 32, or in the last block of a place that is unused.
fn spoil(random: &mut Random, block: &mut [u8], kind: u32, from: usize) {
    match kind {
        BAD_CHECK => block[CHECK + random.below(4) as usize] ^= 1 << random.below(8),
        BAD_INDEX => block[random.below(4) as usize] ^= 1 << random.below(8),
        BAD_BYTE => block[random.between(from as u32, 507) as usize] = random.between(1, 255) as u8,
        _ => block[random.between(12, 59) as usize] ^= 1 << random.below(8),
    }
    if kind != BAD_CHECK {
        seal(block);
    }
}

/// Faults of two kinds in each two blocks, of which the earlier counts, or in one, where the kinds have
/// their order; and with a wrong length, which comes before all.
fn two_faults(checks: &mut Checks, almanac: &Almanac, random: &mut Random) {
    let file = written(almanac, (2000, 2029)).expect("a sound span");
    for (one, other) in (0..4).flat_map(|one| (0..4).map(move |other| (one, other))) {
        for first in KINDS {
            for second in KINDS {
                for _ in 0..4 {
                    let mut changed = file.clone();
                    // In one block the check is spoilt last, behind the sealing for the other fault.
                    let mut faults = [(one, first), (other, second)];
                    faults.sort_by_key(|(_, kind)| *kind == BAD_CHECK);
                    for (at, kind) in faults {
                        let from = if at == 3 {
                            FIRST_PLACE + 3 * PLACE
                        } else {
                            476
                        };
                        spoil(random, &mut changed[at * BLOCK..][..BLOCK], kind, from);
                    }
                    let expected = match one {
                        _ if one == other && first == second => None,
                        _ if one == other => Some(first.min(second)),
                        _ if one < other => Some(first),
                        _ => Some(second),
                    };
                    compare_faulty(checks, almanac, &changed, expected);
                    let shorter = &changed[..3 * BLOCK];
                    compare_faulty(checks, almanac, shorter, Some(BAD_LENGTH));
                    changed.extend([0; BLOCK]);
                    compare_faulty(checks, almanac, &changed, Some(BAD_LENGTH));
                }
            }
        }
    }
}

/// Each byte that should be zero, in the last block of each number of days in it, sealed.
fn unused_bytes(checks: &mut Checks, almanac: &Almanac, random: &mut Random) {
    for days in 1..=18 {
        let file = written(almanac, (7000, 6999 + days)).expect("a sound span");
        for day in 0..2 * PLACES {
            let at = place_of(day);
            if day < days as usize || at >= file.len() {
                continue;
            }
            for byte in at..at + PLACE {
                let mut changed = file.clone();
                changed[byte] = random.between(1, 255) as u8;
                seal_all(&mut changed);
                compare_faulty(checks, almanac, &changed, Some(BAD_BYTE));
            }
            // A tenth day, or one more than the count has: all its own.
            let own = written(almanac, (7000 + day as u32, 7000 + day as u32)).expect("a day");
            let mut changed = file.clone();
            changed[at..at + PLACE].copy_from_slice(&own[FIRST_PLACE..FIRST_PLACE + PLACE]);
            seal_all(&mut changed);
            compare_faulty(checks, almanac, &changed, Some(BAD_BYTE));
        }
    }
}

/// Any bytes, sealed or not, of lengths about a block's and about two.
fn any_bytes(checks: &mut Checks, almanac: &Almanac, random: &mut Random) {
    for round in 0..2000 {
        let length = random.one_of(&[0, 1, 8, 511, 512, 513, 1023, 1024, 1025, 1536]);
        let mut file: Vec<u8> = (0..length).map(|_| random.number() as u8).collect();
        if length >= BLOCK && round % 2 == 0 {
            put_number(&mut file, 4, (length / BLOCK * PLACES) as u32);
            seal_all(&mut file);
        }
        compare_faulty(checks, almanac, &file, None);
    }
    for byte in [0, 255] {
        for length in (0..=1600).step_by(8) {
            compare_faulty(checks, almanac, &vec![byte; length], Some(BAD_LENGTH));
        }
    }
}

pub fn run(checks: &mut Checks, almanac: &Almanac) {
    let mut random = Random::from_seed();
    laws(checks, almanac);
    short_spans(checks, almanac, &mut random);
    other_spans(checks, almanac, &mut random);
    whole_table(checks, almanac);
    for span in [(33_649, 33_649), (4010, 4018), (22_840, 22_859)] {
        each_byte(checks, almanac, &mut random, span);
        cut(checks, almanac, span);
    }
    for first in [0, 4000, LAST_DAY - 38] {
        moved_blocks(checks, almanac, first);
    }
    counts(checks, almanac);
    other_days(checks, almanac, &mut random);
    two_faults(checks, almanac, &mut random);
    unused_bytes(checks, almanac, &mut random);
    any_bytes(checks, almanac, &mut random);
}
