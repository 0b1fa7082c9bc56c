//! What several tests use. Each of them uses some of it.
#![allow(dead_code)]

use std::fmt::Debug;

use zohapy::{
    Outcome, Refusal, TrimOutcome, WORK_WORDS, copy_words_with_voices, fair_copy, marks, read, report, report_words,
    report_words_with_voices, trimmed_copy,
};

/// Stands in every word of a buffer before a call.
pub const OLD: u32 = 0xABCD_EF01;

/// The output words that a report on a log needs.
pub fn report_need(log: &[u32]) -> usize {
    let episodes = read(log).expect("the log passes").episodes;
    if marks(log).is_ok_and(|marks| marks.is_empty()) { report_words(episodes) } else { report_words_with_voices(episodes) }
}

/// The output words that a copy of a log needs.
pub fn copy_need(log: &[u32]) -> usize {
    copy_words_with_voices(read(log).expect("the log passes").links, marks(log).expect("the log passes").len())
}

/// A call with the output words that are needed and with three more: the answer and the words that it counts, which are the same
/// both times. Behind them the output is unchanged, and the work words are zero, with the others unchanged.
fn called<A: PartialEq + Debug>(need: usize, call: impl Fn(&mut [u32], &mut [u32]) -> (A, usize)) -> (A, Vec<u32>) {
    let [exact, longer] = [need, need + 3].map(|out_words| {
        let (mut out, mut work) = (vec![OLD; out_words], vec![OLD; WORK_WORDS + 3]);
        let (answer, count) = call(&mut out, &mut work);
        assert!(out[count..].iter().chain(&work[WORK_WORDS..]).all(|word| *word == OLD));
        assert!(work[..WORK_WORDS].iter().all(|word| *word == 0));
        (answer, out[..count].to_vec())
    });
    assert_eq!(exact, longer);
    exact
}

/// The report of a log, or its loop, and its words.
pub fn reported(log: &[u32]) -> (Outcome, Vec<u32>) {
    called(report_need(log), |out, work| match report(log, out, work) {
        outcome @ Outcome::Report(count) => (outcome, count),
        outcome @ Outcome::Loop(length) => (outcome, length + 1),
        Outcome::Refused(refusal) => panic!("{refusal}"),
    })
}

/// The words of the fair copy of a log.
pub fn copied(log: &[u32]) -> Vec<u32> {
    called(copy_need(log), |out, work| {
        let count = fair_copy(log, out, work).expect("the log has a fair copy");
        (count, count)
    })
    .1
}

/// The trimmed copy of a log, or its loop, and its words.
pub fn trimmed(log: &[u32]) -> (TrimOutcome, Vec<u32>) {
    called(copy_need(log), |out, work| match trimmed_copy(log, out, work) {
        outcome @ TrimOutcome::Trimmed(count) => (outcome, count),
        outcome @ TrimOutcome::Loop(length) => (outcome, length + 1),
        TrimOutcome::Refused(refusal) => panic!("{refusal}"),
    })
}

/// The refusal of a call with buffers of these lengths; they must not change.
fn refused(out_words: usize, work_words: usize, call: impl Fn(&mut [u32], &mut [u32]) -> Option<Refusal>) -> Refusal {
    let (mut out, mut work) = (vec![OLD; out_words], vec![OLD; work_words]);
    let refusal = call(&mut out, &mut work).expect("the call is refused");
    assert!(out.iter().chain(&work).all(|word| *word == OLD));
    refusal
}

/// The refusal of a report call.
pub fn report_refusal(log: &[u32], out_words: usize, work_words: usize) -> Refusal {
    refused(out_words, work_words, |out, work| match report(log, out, work) {
        Outcome::Refused(refusal) => Some(refusal),
        _ => None,
    })
}

/// The refusal of a fair copy call.
pub fn copy_refusal(log: &[u32], out_words: usize, work_words: usize) -> Refusal {
    refused(out_words, work_words, |out, work| fair_copy(log, out, work).err())
}

/// The refusal of a trimmed copy call.
pub fn trim_refusal(log: &[u32], out_words: usize, work_words: usize) -> Refusal {
    refused(out_words, work_words, |out, work| match trimmed_copy(log, out, work) {
        TrimOutcome::Refused(refusal) => Some(refusal),
        _ => None,
    })
}

/// Numbers below a ceiling, the same ones in each run.
pub fn random() -> impl FnMut(u32) -> u32 {
    let mut state: u64 = 0x9E37_79B9_7F4A_7C15;
    move |ceiling| {
        state ^= state << 13;
        state ^= state >> 7;
        state ^= state << 17;
        ((state >> 32) % u64::from(ceiling)) as u32
    }
}
