//! The services that are measured: a call of the library and one of the plain program, with answers of one form.

use crate::plain::{self, Figures};
use zohapy::{Outcome, Refusal, TrimOutcome};

/// The count of words written, or the link count; or the refusal. After 13 the output begins with a loop.
pub type Answer = Result<usize, Refusal>;

/// A call on a log, an output and work words.
type Call = fn(&[u32], &mut [u32], &mut [u32]) -> Answer;

pub struct Service {
    /// The library's call, then the plain program's.
    pub calls: [Call; 2],
    /// The output words that question 11 asks for.
    pub needed: fn(Figures) -> usize,
    /// What it writes.
    pub written: Written,
}

/// The words that a service writes.
#[derive(Clone, Copy, PartialEq, Eq)]
pub enum Written {
    /// Not every word is fixed.
    Free,
    /// Every word is fixed but for those of a loop.
    Fixed,
    /// None: nothing is lent.
    Nothing,
}

pub const REPORT: Service = Service { calls: [report, plain::report], needed: Figures::report_words, written: Written::Free };
pub const TRIMMED_COPY: Service =
    Service { calls: [trimmed_copy, plain::trimmed_copy], needed: Figures::copy_words, written: Written::Fixed };
pub const LINK_COUNT: Service = Service {
    calls: [|log, _, _| zohapy::link_count(log), |log, _, _| plain::link_count(log)],
    needed: |_| 0,
    written: Written::Nothing,
};

fn report(log: &[u32], out: &mut [u32], work: &mut [u32]) -> Answer {
    match zohapy::report(log, out, work) {
        Outcome::Report(count) => Ok(count),
        Outcome::Loop(place) => Err(Refusal { number: 13, place }),
        Outcome::Refused(refusal) => Err(refusal),
    }
}

fn trimmed_copy(log: &[u32], out: &mut [u32], work: &mut [u32]) -> Answer {
    match zohapy::trimmed_copy(log, out, work) {
        TrimOutcome::Trimmed(count) => Ok(count),
        TrimOutcome::Loop(place) => Err(Refusal { number: 13, place }),
        TrimOutcome::Refused(refusal) => Err(refusal),
    }
}
