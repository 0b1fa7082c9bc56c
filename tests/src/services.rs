//! The seven services as the checks call them, with answers in the form of the C header.

use crate::lent::Lent;

#[repr(C)]
#[derive(Clone, Copy, Debug, PartialEq, Eq)]
pub struct ReadAnswer {
    pub number: u32,
    pub place: usize,
    pub episodes: usize,
    pub links: usize,
}

#[repr(C)]
#[derive(Clone, Copy, Debug, PartialEq, Eq)]
pub struct Answer {
    pub number: u32,
    pub value: usize,
}

#[repr(C)]
#[derive(Clone, Copy, Debug, PartialEq, Eq)]
pub struct ThreadAnswer {
    pub number: u32,
    pub start: usize,
    pub length: usize,
}

#[repr(C)]
#[derive(Clone, Copy, Debug, PartialEq, Eq)]
pub struct TextAnswer {
    pub number: u32,
    pub value: usize,
    pub bytes: usize,
}

/// Which function is called: the one of the Rust wrapper, or the one of the C header behind it.
#[derive(Clone, Copy, Debug, PartialEq, Eq)]
pub enum Door {
    Rust,
    C,
}

/// How the last call went beside an older build.
#[derive(Default)]
pub enum Compared {
    #[default]
    Not,
    Same,
    /// What differs.
    Other(String),
}

/// The services. They get the buffers with what stands around them, so that a fault can change that too.
pub trait Services {
    fn read(&mut self, door: Door, log: &mut Lent) -> ReadAnswer;
    fn links(&mut self, door: Door, log: &mut Lent) -> Answer;
    fn report(&mut self, door: Door, log: &mut Lent, out: &mut Lent, work: &mut Lent) -> Answer;
    fn fair_copy(&mut self, door: Door, log: &mut Lent, out: &mut Lent, work: &mut Lent) -> Answer;
    fn trimmed_copy(&mut self, door: Door, log: &mut Lent, out: &mut Lent, work: &mut Lent) -> Answer;
    fn thread(&mut self, door: Door, report: &mut Lent, i: usize) -> ThreadAnswer;
    fn text(&mut self, door: Door, log: &mut Lent<u8>, text: &mut Lent<u8>, out: &mut Lent, work: &mut Lent) -> TextAnswer;

    fn compared(&mut self) -> Compared {
        Compared::Not
    }
}

/// The library as it is.
pub struct Library;

/// The functions of include/zohapy.h.
pub mod header {
    use super::{Answer, ReadAnswer, TextAnswer, ThreadAnswer};

    pub type Reading = unsafe extern "C" fn(*const u32, usize) -> ReadAnswer;
    pub type Counting = unsafe extern "C" fn(*const u32, usize) -> Answer;
    pub type Threading = unsafe extern "C" fn(*const u32, usize, usize) -> ThreadAnswer;

    /// A service that writes to a lent output.
    pub type Lending = unsafe extern "C" fn(*const u32, usize, *mut u32, usize, *mut u32, usize) -> Answer;

    /// The text service.
    pub type Texting = unsafe extern "C" fn(*const u8, usize, *mut u8, usize, *mut u32, usize, *mut u32, usize) -> TextAnswer;

    unsafe extern "C" {
        pub fn zohapy_read(log: *const u32, log_words: usize) -> ReadAnswer;
        pub fn zohapy_links(log: *const u32, log_words: usize) -> Answer;
        pub fn zohapy_report(
            log: *const u32,
            log_words: usize,
            out: *mut u32,
            out_words: usize,
            work: *mut u32,
            work_words: usize,
        ) -> Answer;
        pub fn zohapy_fair_copy(
            log: *const u32,
            log_words: usize,
            out: *mut u32,
            out_words: usize,
            work: *mut u32,
            work_words: usize,
        ) -> Answer;
        pub fn zohapy_trimmed_copy(
            log: *const u32,
            log_words: usize,
            out: *mut u32,
            out_words: usize,
            work: *mut u32,
            work_words: usize,
        ) -> Answer;
        pub fn zohapy_thread(report: *const u32, report_words: usize, i: usize) -> ThreadAnswer;
        pub fn zohapy_text(
            log: *const u8,
            log_bytes: usize,
            text: *mut u8,
            text_bytes: usize,
            out: *mut u32,
            out_words: usize,
            work: *mut u32,
            work_words: usize,
        ) -> TextAnswer;
    }
}

/// A call of one of the header's services that write to a lent output.
pub fn lending(service: header::Lending, log: &[u32], out: &mut [u32], work: &mut [u32]) -> Answer {
    // SAFETY: the pointers and the lengths are those of three slices, and no two of them share a word.
    unsafe { service(log.as_ptr(), log.len(), out.as_mut_ptr(), out.len(), work.as_mut_ptr(), work.len()) }
}

/// A call of a text service.
pub fn texting(service: header::Texting, log: &[u8], text: &mut [u8], out: &mut [u32], work: &mut [u32]) -> TextAnswer {
    let (out_words, work_words) = (out.len(), work.len());
    let (out, work) = (out.as_mut_ptr(), work.as_mut_ptr());
    // SAFETY: the pointers and the lengths are those of four slices, and no two of them share a byte.
    unsafe { service(log.as_ptr(), log.len(), text.as_mut_ptr(), text.len(), out, out_words, work, work_words) }
}

/// An outcome in the form of the C header: number and value.
fn number_and_value(outcome: zohapy::Outcome) -> (u32, usize) {
    match outcome {
        zohapy::Outcome::Report(count) => (0, count),
        zohapy::Outcome::Loop(length) => (13, length),
        zohapy::Outcome::Refused(refusal) => (refusal.number, refusal.place),
    }
}

impl Services for Library {
    fn read(&mut self, door: Door, log: &mut Lent) -> ReadAnswer {
        let log = log.lent();
        match door {
            // SAFETY: the pointer and the length are those of a slice.
            Door::C => unsafe { header::zohapy_read(log.as_ptr(), log.len()) },
            Door::Rust => match zohapy::read(log) {
                Ok(reading) => ReadAnswer { number: 0, place: 0, episodes: reading.episodes, links: reading.links },
                Err(refusal) => ReadAnswer { number: refusal.number, place: refusal.place, episodes: 0, links: 0 },
            },
        }
    }

    fn links(&mut self, door: Door, log: &mut Lent) -> Answer {
        let log = log.lent();
        match door {
            // SAFETY: the pointer and the length are those of a slice.
            Door::C => unsafe { header::zohapy_links(log.as_ptr(), log.len()) },
            Door::Rust => match zohapy::link_count(log) {
                Ok(count) => Answer { number: 0, value: count },
                Err(refusal) => Answer { number: refusal.number, value: refusal.place },
            },
        }
    }

    fn report(&mut self, door: Door, log: &mut Lent, out: &mut Lent, work: &mut Lent) -> Answer {
        let (log, out, work) = (log.lent(), out.lent_mut(), work.lent_mut());
        match door {
            Door::C => lending(header::zohapy_report, log, out, work),
            Door::Rust => {
                let (number, value) = number_and_value(zohapy::report(log, out, work));
                Answer { number, value }
            }
        }
    }

    fn fair_copy(&mut self, door: Door, log: &mut Lent, out: &mut Lent, work: &mut Lent) -> Answer {
        let (log, out, work) = (log.lent(), out.lent_mut(), work.lent_mut());
        match door {
            Door::C => lending(header::zohapy_fair_copy, log, out, work),
            Door::Rust => match zohapy::fair_copy(log, out, work) {
                Ok(count) => Answer { number: 0, value: count },
                Err(refusal) => Answer { number: refusal.number, value: refusal.place },
            },
        }
    }

    fn trimmed_copy(&mut self, door: Door, log: &mut Lent, out: &mut Lent, work: &mut Lent) -> Answer {
        let (log, out, work) = (log.lent(), out.lent_mut(), work.lent_mut());
        match door {
            Door::C => lending(header::zohapy_trimmed_copy, log, out, work),
            Door::Rust => match zohapy::trimmed_copy(log, out, work) {
                zohapy::TrimOutcome::Trimmed(count) => Answer { number: 0, value: count },
                zohapy::TrimOutcome::Loop(length) => Answer { number: 13, value: length },
                zohapy::TrimOutcome::Refused(refusal) => Answer { number: refusal.number, value: refusal.place },
            },
        }
    }

    fn thread(&mut self, door: Door, report: &mut Lent, i: usize) -> ThreadAnswer {
        let report = report.lent();
        match door {
            // SAFETY: the pointer and the length are those of a slice.
            Door::C => unsafe { header::zohapy_thread(report.as_ptr(), report.len(), i) },
            Door::Rust => match zohapy::thread(report, i) {
                Ok(steps) => {
                    let start = (steps.as_ptr() as usize).wrapping_sub(report.as_ptr() as usize) / size_of::<u32>();
                    ThreadAnswer { number: 0, start, length: steps.len() }
                }
                Err(refusal) => ThreadAnswer { number: refusal.number, start: refusal.place, length: 0 },
            },
        }
    }

    fn text(&mut self, door: Door, log: &mut Lent<u8>, text: &mut Lent<u8>, out: &mut Lent, work: &mut Lent) -> TextAnswer {
        let (log, text, out, work) = (log.lent(), text.lent_mut(), out.lent_mut(), work.lent_mut());
        match door {
            Door::C => texting(header::zohapy_text, log, text, out, work),
            Door::Rust => match zohapy::text(log, text, out, work) {
                Ok(zohapy::Printed { outcome, bytes }) => {
                    let (number, value) = number_and_value(outcome);
                    TextAnswer { number, value, bytes }
                }
                Err(refusal) => TextAnswer { number: refusal.number, value: refusal.place, bytes: 0 },
            },
        }
    }
}
