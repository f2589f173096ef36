//! Counts the comparisons; ends the run at the first difference.

use std::fmt::Debug;
use std::time::Instant;

pub struct Checks {
    /// The parts to run, all where none is named; and those that were.
    named: Vec<String>,
    run: Vec<&'static str>,
    part: &'static str,
    begun: Instant,
    in_part: u64,
    total: u64,
}

impl Checks {
    pub fn new(named: Vec<String>) -> Checks {
        Checks {
            named,
            run: Vec::new(),
            part: "",
            begun: Instant::now(),
            in_part: 0,
            total: 0,
        }
    }

    /// All checks, of parts that there are.
    pub fn total(&self) -> u64 {
        if let Some(named) = self
            .named
            .iter()
            .find(|named| !self.run.contains(&&named[..]))
        {
            println!("compare: there is no part {named:?}");
            std::process::exit(1);
        }
        self.total
    }

    /// Runs a part and prints its number of checks.
    pub fn part(&mut self, name: &'static str, run: impl FnOnce(&mut Checks)) {
        if !self.named.is_empty() && !self.named.iter().any(|named| named == name) {
            return;
        }
        self.run.push(name);
        self.part = name;
        self.begun = Instant::now();
        self.in_part = 0;
        run(self);
        self.total += self.in_part;
        let seconds = self.begun.elapsed().as_secs_f64();
        println!("{name}: {} checks, {seconds:.1} s", self.in_part);
    }

    /// One comparison. The input's text is made only for a difference.
    pub fn same<T: PartialEq + Debug>(
        &mut self,
        call: &str,
        input: impl FnOnce() -> String,
        expected: T,
        came: T,
    ) {
        self.in_part += 1;
        if expected != came {
            self.differ(
                call,
                &input(),
                &format!("{expected:?}"),
                &format!("{came:?}"),
            );
        }
    }

    /// A number that has a limit and no more to compare with.
    pub fn at_most(&mut self, call: &str, input: impl FnOnce() -> String, limit: u32, came: u32) {
        self.in_part += 1;
        if came > limit {
            self.differ(
                call,
                &input(),
                &format!("at most {limit}"),
                &came.to_string(),
            );
        }
    }

    /// Every byte of some lent memory; of a difference, the first byte is named.
    pub fn same_bytes(
        &mut self,
        call: &str,
        input: impl FnOnce() -> String,
        expected: &[u8],
        came: &[u8],
    ) {
        self.in_part += 1;
        if expected != came {
            let at = expected
                .iter()
                .zip(came)
                .take_while(|(e, c)| e == c)
                .count();
            let around = |bytes: &[u8]| {
                let end = bytes.len().min(at + 8);
                format!("from byte {at} of {}: {:?}", bytes.len(), &bytes[at..end])
            };
            self.differ(call, &input(), &around(expected), &around(came));
        }
    }

    /// Every line of some text; of a difference, the first line is named.
    pub fn same_lines(
        &mut self,
        call: &str,
        input: impl FnOnce() -> String,
        expected: &str,
        came: &str,
    ) {
        self.in_part += 1;
        if expected != came {
            let lines = |text: &str| text.split_inclusive('\n').map(String::from).collect();
            let (expected, came): (Vec<String>, Vec<String>) = (lines(expected), lines(came));
            let pairs = expected.iter().zip(&came);
            let at = pairs.take_while(|(e, c)| e == c).count();
            let line = |lines: &[String]| {
                format!("line {} of {}: {:?}", at + 1, lines.len(), lines.get(at))
            };
            self.differ(call, &input(), &line(&expected), &line(&came));
        }
    }

    fn differ(&self, call: &str, input: &str, expected: &str, came: &str) -> ! {
        println!("{}: a difference after {} checks", self.part, self.in_part);
        println!("  call:     {call}");
        println!("  input:    {input}");
        println!("  expected: {expected}");
        println!("  came:     {came}");
        std::process::exit(1);
    }
}
