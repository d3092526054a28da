//! What was met: how many calls, and how many of each kind of answer.

use std::collections::BTreeMap;
use std::fmt;
use std::io::{self, Write};

/// A kind of answer, or something else that calls must meet.
#[derive(Clone, Copy, Debug, PartialEq, Eq, PartialOrd, Ord)]
pub enum Class {
    /// Accepted, in the calls that have no outcome.
    Accepted,
    /// Found with no iteration or update.
    FoundAtStart,
    /// Found later.
    FoundLater,
    /// Not found.
    NotFound,
    /// Refused by document 01's number.
    Refused(u16),
    /// Something about an input or a result that is counted beside the answers.
    Seen(&'static str),
}

impl Class {
    /// The kind of an answer that has an outcome, from its status and the number of iterations or updates.
    pub fn of_outcome(status: u8, steps: impl Into<u16>) -> Class {
        match (status, steps.into()) {
            (0, 0) => Class::FoundAtStart,
            (0, _) => Class::FoundLater,
            _ => Class::NotFound,
        }
    }

    fn is_accepted(self) -> bool {
        !matches!(self, Class::Refused(_) | Class::Seen(_))
    }
}

impl fmt::Display for Class {
    fn fmt(&self, formatter: &mut fmt::Formatter<'_>) -> fmt::Result {
        match self {
            Class::Accepted => write!(formatter, "accepted"),
            Class::FoundAtStart => write!(formatter, "found at the start"),
            Class::FoundLater => write!(formatter, "found later"),
            Class::NotFound => write!(formatter, "not found"),
            Class::Refused(number) => write!(formatter, "refused by {number}"),
            Class::Seen(what) => write!(formatter, "{what}"),
        }
    }
}

/// The counts for one entry point, or for the program.
#[derive(Clone, Debug)]
pub struct Tally {
    name: &'static str,
    expected: Vec<Class>,
    answers: u64,
    counts: BTreeMap<Class, u64>,
}

impl Tally {
    /// No counts yet. Every class of `expected` must be met, and no other answer.
    pub fn new(name: &'static str, expected: Vec<Class>) -> Tally {
        Tally {
            name,
            expected,
            answers: 0,
            counts: BTreeMap::new(),
        }
    }

    /// Counts the answer of one call, on which both decoders agree.
    pub fn answer(&mut self, class: Class) {
        self.answers += 1;
        *self.counts.entry(class).or_default() += 1;
    }

    /// Counts what was seen beside the answer, if it was.
    pub fn seen(&mut self, what: &'static str, met: bool) {
        if met {
            *self.counts.entry(Class::Seen(what)).or_default() += 1;
        }
    }

    /// What is wrong with the counts: classes that were never met, and answers that the documents
    /// do not have.
    ///
    /// # Errors
    ///
    /// When there is one.
    pub fn complete(&self) -> Result<(), String> {
        let missing = self.expected.iter();
        let missing = missing
            .filter(|class| !self.counts.contains_key(class))
            .map(|class| format!("{}: never met: {class}", self.name));
        let unexpected = self.counts.keys();
        let unexpected = unexpected
            .filter(|class| !self.expected.contains(class))
            .map(|class| format!("{}: met, but not expected: {class}", self.name));
        let wrong: Vec<String> = missing.chain(unexpected).collect();
        if wrong.is_empty() {
            Ok(())
        } else {
            Err(wrong.join("\n"))
        }
    }

    /// Writes the counts as one line to standard error. In a test, `eprintln!` would be kept back
    /// when the test passes; this is not.
    pub fn report(&self) {
        // A closed standard error is no reason to fail.
        let _ = writeln!(io::stderr().lock(), "{self}");
    }
}

impl fmt::Display for Tally {
    fn fmt(&self, formatter: &mut fmt::Formatter<'_>) -> fmt::Result {
        let accepted = self.counts.iter().filter(|(class, _)| class.is_accepted());
        let accepted: u64 = accepted.map(|(_, count)| count).sum();
        write!(
            formatter,
            "{}: {} answers compared, {accepted} accepted",
            self.name, self.answers
        )?;
        let mut separator = ';';
        for (class, count) in &self.counts {
            if *class != Class::Accepted {
                write!(formatter, "{separator} {class}: {count}")?;
                separator = ',';
            }
        }
        Ok(())
    }
}

#[cfg(test)]
mod tests {
    use super::*;

    fn tally() -> Tally {
        Tally::new("call", vec![Class::Accepted, Class::Refused(6)])
    }

    #[test]
    fn a_tally_is_complete_when_every_class_was_met() {
        let mut tally = tally();
        tally.answer(Class::Accepted);
        assert_eq!(
            tally.complete(),
            Err("call: never met: refused by 6".to_string())
        );
        tally.answer(Class::Refused(6));
        assert_eq!(tally.complete(), Ok(()));
        assert_eq!(
            tally.to_string(),
            "call: 2 answers compared, 1 accepted; refused by 6: 1"
        );
    }

    #[test]
    fn an_answer_that_the_call_does_not_have_is_an_error() {
        let mut tally = tally();
        for class in [Class::Accepted, Class::Refused(6), Class::Refused(7)] {
            tally.answer(class);
        }
        assert_eq!(
            tally.complete(),
            Err("call: met, but not expected: refused by 7".to_string())
        );
    }

    #[test]
    fn what_is_seen_is_no_answer() {
        let mut tally = tally();
        tally.seen("p 2", true);
        tally.seen("p 3", false);
        assert_eq!(
            tally.to_string(),
            "call: 0 answers compared, 0 accepted; p 2: 1"
        );
    }
}
