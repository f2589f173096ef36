//! Memory that is lent to a call: it is filled with a pattern first, and compared whole afterwards,
//! with bytes on both sides that no call may touch.

use std::ops::Range;

use crate::checks::Checks;

/// Bytes on each side, at least.
const GUARD: usize = 16;

pub struct Lent {
    memory: Vec<u8>,
    lent: Range<usize>,
}

/// A pattern that differs from length to length.
fn patterned(length: usize) -> Vec<u8> {
    let first = (length as u8).wrapping_mul(89).wrapping_add(0xA5);
    (0..length)
        .map(|at| (at as u8).wrapping_mul(151).wrapping_add(first))
        .collect()
}

impl Lent {
    /// So many bytes, at an address that is seldom a multiple of 4.
    pub fn new(length: usize) -> Lent {
        let before = GUARD + length % 7;
        Lent {
            memory: patterned(before + length + GUARD),
            lent: before..before + length,
        }
    }

    /// Just these bytes, with the pattern on both sides.
    pub fn holding(bytes: &[u8]) -> Lent {
        let mut lent = Lent::new(bytes.len());
        lent.bytes_mut().copy_from_slice(bytes);
        lent
    }

    /// The bytes that are lent.
    pub fn bytes(&self) -> &[u8] {
        &self.memory[self.lent.clone()]
    }

    pub fn bytes_mut(&mut self) -> &mut [u8] {
        &mut self.memory[self.lent.clone()]
    }

    /// Compares all memory after a call with what the lent bytes should be, and the pattern around
    /// them.
    pub fn compare(
        &self,
        checks: &mut Checks,
        call: &str,
        input: impl FnOnce() -> String,
        expected: &[u8],
    ) {
        let mut whole = patterned(self.memory.len());
        whole[self.lent.clone()].copy_from_slice(expected);
        let before = self.lent.start;
        let input = || format!("{}, all bytes from {before} before it on", input());
        checks.same_bytes(call, input, &whole, &self.memory);
    }
}
