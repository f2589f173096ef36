//! The programs `almanac_write` and `almanac_read`, each by itself: lines with a span and the files that
//! are written for them, and files sound and faulty, with what is printed of them.

use crate::checks::Checks;
use crate::random::Random;
use crate::reference::almanac::Almanac;
use crate::reference::almanac_file::{file_for, printed, seal, written, BLOCK, CHECK, FIRST_PLACE};
use crate::reference::days::LAST_DAY;

use super::programs;
use super::queries::random_span;
use super::span_input::Program;

const READ: &str = "target/bin/almanac_read";

/// On acceptance nothing may stand on standard error. With a refusal it has one line, which begins with
/// the bad block, where there is one.
fn compare(checks: &mut Checks, almanac: &Almanac, pieces: &[&[u8]]) {
    let file = pieces.concat();
    let input = || {
        let start = &file[..file.len().min(24)];
        let (length, pieces) = (file.len(), pieces.len());
        format!("a file of {length} bytes in {pieces} pieces: {start:?}")
    };
    let written = programs::run(checks, READ, input, pieces);
    match printed(almanac, &file) {
        Ok(text) => {
            checks.same_lines(READ, input, &text, &written.output);
            checks.same("its standard error", input, "", &written.error);
        }
        Err(refused) => {
            let expected = format!("refused {}\n", refused.refusal);
            checks.same_lines(READ, input, &expected, &written.output);
            let error = &written.error;
            let one_line = error.ends_with('\n') && error.lines().count() == 1;
            checks.same("its standard error is one line", input, true, one_line);
            if let Some(block) = refused.block {
                let start = format!("block {block}: ");
                let came: String = error.chars().take(start.len()).collect();
                checks.same("what its standard error is about", input, start, came);
            }
        }
    }
}

/// Sound files of each length from 1 to 40 days, and longer ones.
fn sound(checks: &mut Checks, almanac: &Almanac, random: &mut Random) {
    let file = |span| written(almanac, span).expect("a sound span");
    for days in 1..=40 {
        let first = random.below(LAST_DAY + 1 - days);
        compare(checks, almanac, &[&file((first, first + days - 1))]);
    }
    for _ in 0..60 {
        compare(checks, almanac, &[&file(random_span(random, 3000))]);
    }
    let whole = file((0, LAST_DAY));
    compare(checks, almanac, &[&whole]);
    compare(checks, almanac, &[&whole[..whole.len() - BLOCK]]);
    compare(checks, almanac, &[&whole[..whole.len() - 1]]);
    let mut bad = whole;
    let last = bad.len() - 1;
    bad[last] ^= 1;
    compare(checks, almanac, &[&bad]);
}

/// Each kind of fault in each block of a file; a wrong length with and without another fault; and files
/// that come in pieces.
fn faulty(checks: &mut Checks, almanac: &Almanac, random: &mut Random) {
    let file = written(almanac, (5000, 5112)).expect("a sound span");
    let blocks = file.len() / BLOCK;
    for block in 0..blocks {
        for (within, sealed) in [
            (CHECK, false),
            (300, false),
            (0, true),
            (4, true),
            (480, true),
            (FIRST_PLACE, true),
            (FIRST_PLACE + 20, true),
        ] {
            let mut changed = file.clone();
            let own = &mut changed[block * BLOCK..][..BLOCK];
            own[within] ^= 1 << random.below(8);
            if sealed {
                seal(own);
            }
            compare(checks, almanac, &[&changed]);
            compare(checks, almanac, &[&changed[..changed.len() - BLOCK]]);
            let later = random.below(blocks as u32) as usize;
            changed[later * BLOCK + 100] ^= 1;
            compare(checks, almanac, &[&changed]);
            changed.push(0);
            compare(checks, almanac, &[&changed]);
        }
    }
    for length in [0, 1, 4, 8, 511, 512, 513, 1023, 1024, file.len() - 1] {
        compare(checks, almanac, &[&file[..length]]);
        let twice = file.repeat(2);
        compare(checks, almanac, &[&twice[..file.len() + length]]);
    }
    for text in ["33649\n", "1612-1-1 1612-12-31\n", "\n", "refused 2\n"] {
        compare(checks, almanac, &[text.as_bytes()]);
    }
    for at in [1, 4, 100, 511, 512, 513, 1024, 4096, file.len() - 1] {
        let (one, other) = file.split_at(at);
        compare(checks, almanac, &[one, other]);
    }
    let three: Vec<&[u8]> = file.chunks(BLOCK / 2 + 1).collect();
    compare(checks, almanac, &three);
}

pub fn run(checks: &mut Checks, almanac: &Almanac) {
    let mut random = Random::from_seed();
    let program = Program {
        path: "target/bin/almanac_write",
        printed: &|input| file_for(almanac, input),
    };
    let spans: Vec<_> = (1..=40)
        .map(|days| {
            let first = random.below(LAST_DAY + 1 - days);
            (first, first + days - 1)
        })
        .collect();
    program.compare_inputs(checks, almanac, &spans);
    sound(checks, almanac, &mut random);
    faulty(checks, almanac, &mut random);
}
