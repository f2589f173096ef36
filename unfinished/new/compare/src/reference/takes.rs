//! P4: "every program that refuses, but for `day_sheet`, says on standard error, in one line, what was wrong and
//! what it takes", in the words of the documents.

use super::page::{Complaint, Printed, TOO_LONG};
use super::refusal::{
    Answer, BAD_CONDITION, BAD_INPUT, LAST_BEFORE_FIRST, NO_SUCH_DATE, NO_SUCH_EDITION,
    OUT_OF_RANGE,
};

const DAY: &str = "a day, as 33649 or 1612-5-14";
const DAYS: &str = "the first and the last day, each as 33649 or 1612-5-14";

/// What a program takes.
fn taken(program: &str) -> String {
    match program {
        "engraving" => DAY.to_string(),
        "lunar_month" => format!("{DAY}, and behind it an edition, 1 or 2"),
        "month" => {
            format!("{DAY}, and behind it days 1 to 366, edition 1 or 2, print names or csv")
        }
        "drift" | "almanac_write" => DAYS.to_string(),
        "saka" => {
            "a year, a month, a tithi and a weekday, as 1534 vaishakha shukla 15 monday".to_string()
        }
        "signs" => format!("{DAYS}, and behind them true for the true Sun"),
        _ => unreachable!("{program} says nothing"),
    }
}

/// A newline ends the input, and there is no other; and it is not too long.
pub fn is_one_line(input: &[u8]) -> bool {
    let newlines = input.iter().filter(|byte| **byte == b'\n').count();
    newlines == 1 && input.ends_with(b"\n") && input.len() < TOO_LONG
}

fn wrong(input: &[u8], refusal: u32) -> &'static str {
    match refusal {
        BAD_INPUT if !is_one_line(input) => "it is not one line under 512 KiB, ended by a newline",
        BAD_INPUT => "the line has another form",
        NO_SUCH_EDITION => "an edition other than 1 and 2",
        BAD_CONDITION => "a value is out of range",
        NO_SUCH_DATE => "there is no such date",
        OUT_OF_RANGE => "a day outside 0 to 401599",
        LAST_BEFORE_FIRST => "the last day is before the first",
        _ => unreachable!("a line has no other refusal"),
    }
}

/// What a program says of an input that it refuses.
pub fn complaint(program: &str, input: &[u8], refusal: u32) -> Complaint {
    let takes = format!("{program} takes {}: ", taken(program));
    Complaint::Message(takes + wrong(input, refusal))
}

/// All that a program writes for an input.
pub fn printed(program: &str, input: &[u8], answer: Answer<String>) -> Printed {
    match answer {
        Ok(text) => Printed::accepted(text, String::new()),
        Err(refusal) => Printed::refused(refusal, complaint(program, input, refusal)),
    }
}
