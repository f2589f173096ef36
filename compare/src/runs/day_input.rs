//! The programs that read a day's number, the day sheet, the engraving and the month, run on many
//! inputs; what they print is compared byte for byte.

use crate::checks::Checks;
use crate::random::Random;
use crate::reference::almanac::Almanac;
use crate::reference::days::LAST_DAY;

use super::programs::{self, shown};

/// A program, and what it has to print for an input.
pub struct Program {
    pub path: &'static str,
    pub printed: fn(&Almanac, &[u8]) -> String,
}

impl Program {
    fn compare_pieces(&self, checks: &mut Checks, almanac: &Almanac, pieces: &[&[u8]]) {
        let input = pieces.concat();
        let expected = (self.printed)(almanac, &input);
        let input = || format!("{}, in {} pieces", shown(&input), pieces.len());
        let written = programs::run(checks, self.path, input, pieces);
        checks.same_lines(self.path, input, &expected, &written.output);
        checks.same("its standard error", input, String::new(), written.error);
    }

    pub fn compare(&self, checks: &mut Checks, almanac: &Almanac, input: &[u8]) {
        self.compare_pieces(checks, almanac, &[input]);
    }

    /// Good, bad and long inputs.
    pub fn compare_inputs(&self, checks: &mut Checks, almanac: &Almanac) {
        for input in [numbers(), other_forms(), long()].concat() {
            self.compare(checks, almanac, &input);
        }
        for pieces in IN_PIECES {
            self.compare_pieces(checks, almanac, pieces);
        }
    }
}

fn numbers() -> Vec<Vec<u8>> {
    let edges = [
        0, 1, 9, 10, 99, 100, 999, 1000, 4015, 4016, 9999, 10000, 33649, 99999, 100000,
    ];
    let last = [LAST_DAY - 1, LAST_DAY, LAST_DAY + 1, 999_998, 999_999];
    let mut random = Random::from_seed();
    let drawn = std::iter::repeat_with(|| random.below(LAST_DAY + 1)).take(400);
    let numbers = edges.into_iter().chain(last).chain(drawn);
    let mut inputs: Vec<Vec<u8>> = numbers
        .map(|number| format!("{number}\n").into_bytes())
        .collect();
    for number in [0, 7, 33649, LAST_DAY, LAST_DAY + 1] {
        inputs.extend((1..=9).map(|width| format!("{number:0width$}\n").into_bytes()));
    }
    inputs
}

/// Inputs of another form, and a few that look as if they were.
fn other_forms() -> Vec<Vec<u8>> {
    let inputs: [&[u8]; 34] = [
        b"",
        b"\n",
        b"\n\n",
        b"0",
        b"33649",
        b"401599",
        b"401600",
        b"33649\n\n",
        b"33649\n0\n",
        b"33649\n0",
        b"33649\r\n",
        b"33649\n\r",
        b"\n33649\n",
        b"+33649\n",
        b"-1\n",
        b"-0\n",
        b" 33649\n",
        b"33649 \n",
        b"33 649\n",
        b"33649\t\n",
        b"33649.0\n",
        b"0x8371\n",
        b"1e3\n",
        b"33649\0\n",
        b"33649\n\0",
        b"\0",
        b"\x0033649\n",
        b"1234567\n",
        b"0033649\n",
        b"0000000\n",
        b"4294967296\n",
        b"18446744073709551616\n",
        b"\xEF\xBB\xBF33649\n",
        b"\xD9\xA3\n",
    ];
    let mut inputs = inputs.map(<[u8]>::to_vec).to_vec();
    for byte in 0..=255 {
        inputs.push(vec![byte, b'\n']);
        inputs.push(vec![b'1', b'2', byte, b'4', b'\n']);
        inputs.push(vec![b'1', b'2', b'3', byte]);
    }
    inputs
}

/// Long inputs, whose first bytes may be a good line.
fn long() -> Vec<Vec<u8>> {
    let lengths = [
        8, 15, 16, 17, 64, 255, 256, 257, 4096, 65_536, 65_537, 4_000_000,
    ];
    let of_length = |length| {
        [
            b"1".repeat(length),
            [b"0".repeat(length), b"7\n".to_vec()].concat(),
            [b"33649\n".to_vec(), b"\0".repeat(length)].concat(),
            b"33649\n".repeat(length / 6 + 1),
        ]
    };
    lengths.into_iter().flat_map(of_length).collect()
}

/// A line is the same however the pipe hands it over.
const IN_PIECES: [&[&[u8]]; 7] = [
    &[b"336", b"49\n"],
    &[b"33649", b"\n"],
    &[b"4", b"0", b"1", b"5", b"9", b"9", b"\n"],
    &[b"33649\n", b"\n"],
    &[b"33649\n", b"0"],
    &[b"401", b"600", b"\n"],
    &[b"123456", b"7\n"],
];
