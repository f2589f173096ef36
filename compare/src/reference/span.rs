//! A span by itself, as paper 02's L10 and L12 ask for it, and the line with two days in which the
//! programs `signs` and `drift` read one. The papers leave the line open: it is that of a page's span
//! without its word (`page`), and nothing may stand behind its newline. By P2 a word may stand behind
//! the two days of `signs`.

use super::almanac::Almanac;
use super::page::{letters, read, without_newline, words, Page, TOO_LONG};
use super::refusal::{Answer, BAD_INPUT};
use super::search::Query;

/// First and last day.
pub type Span = (u32, u32);

/// "Refusals: 2, 5 [...] as in the search"; and L12's "2, 5".
pub fn well_formed((first, last): Span) -> Answer<()> {
    Query::without_conditions(first, last)
        .well_formed()
        .map(drop)
}

/// An input that is no longer than one line may be.
fn line_in(input: &[u8]) -> Answer<String> {
    let lines = input.split_inclusive(|byte| *byte == b'\n').count();
    if lines > 1 || input.len() >= TOO_LONG {
        return Err(BAD_INPUT);
    }
    Ok(letters(input))
}

/// The line is read with the page's word before it, as a page.
fn span_of(almanac: &Almanac, line: &str) -> Answer<Span> {
    match read(almanac, &format!("span {line}")) {
        Ok(Page { query, .. }) => Ok((query.first, query.last)),
        Err((fault, _)) => Err(fault.refusal()),
    }
}

/// The span of an input, with its refusals.
pub fn span_in(almanac: &Almanac, input: &[u8]) -> Answer<Span> {
    span_of(almanac, &line_in(input)?)
}

/// The same where the word may stand behind the two days, by P3 "in any case", and whether it does: the
/// line is then read without it.
pub fn span_and_word_in(almanac: &Almanac, input: &[u8], word: &str) -> Answer<(Span, bool)> {
    let line = line_in(input)?;
    match without_newline(&line).map(words).unwrap_or_default()[..] {
        [first, last, behind] if behind.eq_ignore_ascii_case(word) => {
            let span = span_of(almanac, &format!("{first} {last}\n"))?;
            Ok((span, true))
        }
        _ => Ok((span_of(almanac, &line)?, false)),
    }
}
