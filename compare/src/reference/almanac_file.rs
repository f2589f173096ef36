//! Paper 02, "L7. Almanac files from the server": a span's days in blocks of 512 bytes. A file is read
//! by writing anew, block by block, what its first day and its count make it, and comparing.

use super::almanac::Almanac;
use super::edition::Edition;
use super::month;
use super::records::record;
use super::refusal::{
    Answer, BAD_BYTE, BAD_CHECK, BAD_DAY, BAD_INDEX, BAD_LENGTH, LIST_TOO_SHORT, OUT_OF_RANGE,
};
use super::span::{span_in, well_formed, Span};

/// "Blocks of 512 bytes."
pub const BLOCK: usize = 512;

/// "Nine places of 52 bytes for days."
pub const PLACES: usize = 9;
pub const PLACE: usize = 52;

/// Where the first place stands, behind the index and the number of days; and the check.
pub const FIRST_PLACE: usize = 8;
pub const CHECK: usize = 508;

/// "A day is its number, nine mean places, true Sun, true Moon, and one byte each for tithi, nakshatra,
/// yoga and karana." "All numbers are 32-bit, low byte first, but the limbs." "L7's files [...] stay
/// edition 1" (L8).
fn place(almanac: &Almanac, number: u32) -> Answer<Vec<u8>> {
    let [number, _weekday, others @ ..] = record(almanac, Edition::First, number)?;
    let (places, limbs) = others.split_at(11);
    let numbers = [&[number], places].concat();
    let mut bytes: Vec<u8> = numbers.iter().flat_map(|part| part.to_le_bytes()).collect();
    bytes.extend(limbs.iter().map(|limb| *limb as u8));
    Ok(bytes)
}

/// "The sum over the first 508 bytes of byte × (position + 1), position from 0."
pub fn check(block: &[u8]) -> u32 {
    let places = block[..CHECK].iter().zip(1..);
    places.map(|(byte, weight)| u32::from(*byte) * weight).sum()
}

/// Puts its check behind a block's bytes.
pub fn seal(block: &mut [u8]) {
    let sum = check(block);
    block[CHECK..].copy_from_slice(&sum.to_le_bytes());
}

/// The block of this index, of a file of so many days from the first on. "Unused places are zero." Refused
/// where a day of it is none.
fn block(almanac: &Almanac, first: u32, count: u32, index: u32) -> Answer<Vec<u8>> {
    let before = u64::from(index) * PLACES as u64;
    let end = u64::from(count).min(before + PLACES as u64);
    let mut block = [index.to_le_bytes(), count.to_le_bytes()].concat();
    for at in before..end {
        let number = u32::try_from(u64::from(first) + at).map_err(|_| OUT_OF_RANGE)?;
        block.extend(place(almanac, number)?);
    }
    block.resize(BLOCK, 0);
    seal(&mut block);
    Ok(block)
}

/// The blocks of so many days.
fn blocks_for(count: u32) -> u64 {
    u64::from(count).div_ceil(PLACES as u64)
}

fn days_of((first, last): Span) -> Answer<u32> {
    well_formed((first, last))?;
    Ok(last - first + 1)
}

/// The length of a span's file. "Refusals: writing as in the search, 2, 5, 7"; 7 needs the lent bytes
/// and comes later.
pub fn length(span: Span) -> Answer<usize> {
    Ok(blocks_for(days_of(span)?) as usize * BLOCK)
}

/// The block of this index of a span's file: 2 for one behind the last.
pub fn written_block(almanac: &Almanac, span: Span, index: u32) -> Answer<Vec<u8>> {
    let count = days_of(span)?;
    if u64::from(index) < blocks_for(count) {
        block(almanac, span.0, count, index)
    } else {
        Err(OUT_OF_RANGE)
    }
}

/// A span's file.
pub fn written(almanac: &Almanac, span: Span) -> Answer<Vec<u8>> {
    let blocks = blocks_for(days_of(span)?) as u32;
    let mut file = Vec::new();
    for index in 0..blocks {
        file.extend(written_block(almanac, span, index)?);
    }
    Ok(file)
}

/// Why a file is refused, and by which block; by none where its length is wrong.
#[derive(Clone, Copy, PartialEq, Eq, Debug)]
pub struct Refused {
    pub refusal: u32,
    pub block: Option<u32>,
}

fn number_at(bytes: &[u8], at: usize) -> u32 {
    u32::from_le_bytes(bytes[at..at + 4].try_into().expect("four bytes"))
}

/// What is wrong with a block: "10 check, 11 index or count, 12 a byte that should be zero, 13 a day that
/// isn't the one after or whose fields aren't its own".
fn fault_of(almanac: &Almanac, came: &[u8], first: u32, count: u32, index: u32) -> Answer<()> {
    if number_at(came, CHECK) != check(came) {
        return Err(BAD_CHECK);
    }
    if [number_at(came, 0), number_at(came, 4)] != [index, count] {
        return Err(BAD_INDEX);
    }
    let left = u64::from(count) - u64::from(index) * PLACES as u64;
    let unused = FIRST_PLACE + PLACE * left.min(PLACES as u64) as usize..CHECK;
    if came[unused].iter().any(|byte| *byte != 0) {
        return Err(BAD_BYTE);
    }
    match block(almanac, first, count, index) {
        Ok(expected) if expected == came => Ok(()),
        _ => Err(BAD_DAY),
    }
}

/// The days of a file. "Reading: 9 first, for less than one block or a length other than the first
/// block's count demands; then by the first bad block [...]; last 7", which needs the list and comes
/// later. "A file holds at least one day."
pub fn read(almanac: &Almanac, file: &[u8]) -> Result<Vec<u32>, Refused> {
    let of_length = Err(Refused {
        refusal: BAD_LENGTH,
        block: None,
    });
    if file.len() < BLOCK {
        return of_length;
    }
    let count = number_at(file, 4);
    if file.len() as u64 != blocks_for(count) * BLOCK as u64 {
        return of_length;
    }
    let first = number_at(file, FIRST_PLACE);
    for (came, index) in file.chunks(BLOCK).zip(0..) {
        if let Err(refusal) = fault_of(almanac, came, first, count, index) {
            let block = Some(index);
            return Err(Refused { refusal, block });
        }
    }
    Ok((first..first + count).collect())
}

/// The result of a reading into a list of so many entries, and the number of days that it tells.
pub fn told(days: &Result<Vec<u32>, Refused>, entries: usize) -> (u32, u32) {
    match days {
        Ok(days) if days.len() > entries => (LIST_TOO_SHORT, days.len() as u32),
        Ok(days) => (0, days.len() as u32),
        Err(refused) => (refused.refusal, 0),
    }
}

/// All that the program `almanac_write` writes for an input, a line with a span.
pub fn file_for(almanac: &Almanac, input: &[u8]) -> Vec<u8> {
    let file = span_in(almanac, input).and_then(|span| written(almanac, span));
    file.unwrap_or_else(|refusal| format!("refused {refusal}\n").into_bytes())
}

/// What the program `almanac_read` prints for a file: the heading of `month`, and a line for each day.
pub fn printed(almanac: &Almanac, file: &[u8]) -> Result<String, Refused> {
    let days = read(almanac, file)?;
    let lines = days.into_iter().map(|day| month::line(almanac, day));
    let lines: Answer<String> = lines.collect();
    Ok(month::heading() + &lines.expect("a day that is read is a day"))
}
