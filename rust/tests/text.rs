//! The text service: worked texts, what is left in the buffers, and the texts as which the wrapper displays reports and failures.

mod common;

use common::{OLD, random};
use zohapy::{
    Failure, LOG_BYTES, Outcome, Printed, Refusal, Report, TEXT_BYTES, WORK_WORDS, bytes_from_words, head_word, printed, report,
    report_words, text, to_word, voices_word, words_from_bytes,
};

/// Stands in every byte of a text buffer before a call.
const OLD_BYTE: u8 = 0xA5;

/// The output words that are enough for every log.
const PLENTY: usize = report_words(200);

/// The whole example, and its text.
const WHOLE: [u32; 6] = [0x1000_0005, 0x2000_0000, 0x3000_0001, 0x2000_0002, 0x3000_0003, 0xF000_0002];
const WHOLE_TEXT: &str = "episodes 5\nlinks 2\nwidth 3\napart 1 3 4\nthread 0 1\nthread 2 3\nthread 4\n";

/// A door alone; two episodes linked to each other.
const DOOR: [u32; 3] = [0x1000_0001, 0x9000_0000, 0xF000_0000];
const AROUND: [u32; 6] = [0x1000_0002, 0x2000_0000, 0x3000_0001, 0x2000_0001, 0x3000_0000, 0xF000_0002];

/// A text call with buffers of these lengths: its outcome and its text, with output and work words as they are after it. Behind the
/// text the buffer is unchanged.
fn called(log: &[u8], text_bytes: usize, out_words: usize, work_words: usize) -> (Outcome, String, Vec<u32>, Vec<u32>) {
    let (mut bytes, mut out, mut work) = (vec![OLD_BYTE; text_bytes], vec![OLD; out_words], vec![OLD; work_words]);
    let Printed { outcome, bytes: count } = text(log, &mut bytes, &mut out, &mut work).expect("the text buffer is long enough");
    assert!(bytes[count..].iter().all(|byte| *byte == OLD_BYTE));
    bytes.truncate(count);
    (outcome, String::from_utf8(bytes).expect("the text is ASCII"), out, work)
}

/// The outcome and the text of a call on words with these output and work words, with text buffers of the exact length and longer.
/// Output and work words are left as by a report call.
fn printed_as_report(log: &[u32], out_words: usize, work_words: usize) -> (Outcome, String) {
    let (mut out, mut work) = (vec![OLD; out_words], vec![OLD; work_words]);
    let outcome = report(log, &mut out, &mut work);
    let log = bytes_from_words(log);
    let [exact, longer] = [TEXT_BYTES, TEXT_BYTES + 77].map(|text_bytes| called(&log, text_bytes, out_words, work_words));
    assert_eq!(exact, longer);
    assert!((exact.0, &exact.2, &exact.3) == (outcome, &out, &work));
    (exact.0, exact.1)
}

/// The outcome and the text of a call that is refused and changes no output word and no work word.
fn refused(log: &[u8], out_words: usize, work_words: usize) -> (Outcome, String) {
    let (outcome, text, out, work) = called(log, TEXT_BYTES, out_words, work_words);
    assert!(out.iter().chain(&work).all(|word| *word == OLD));
    (outcome, text)
}

/// A refusal as an outcome.
fn refusal(number: u32, place: usize) -> Outcome {
    Outcome::Refused(Refusal { number, place })
}

/// What the wrapper displays for a log.
fn displayed(log: &[u8]) -> String {
    match words_from_bytes(log).map_err(Failure::from).and_then(|words| Report::of(&words)) {
        Ok(report) => report.to_string(),
        Err(failure) => failure.to_string(),
    }
}

#[test]
fn the_whole_example_has_seven_lines() {
    assert_eq!(printed_as_report(&WHOLE, PLENTY, WORK_WORDS), (Outcome::Report(13), WHOLE_TEXT.into()));
    assert_eq!(printed_as_report(&WHOLE, report_words(5), WORK_WORDS + 3), (Outcome::Report(13), WHOLE_TEXT.into()));
    assert_eq!(WHOLE_TEXT.lines().count(), 7);
    assert_eq!(printed(&bytes_from_words(&WHOLE)), WHOLE_TEXT);
}

#[test]
fn apart_stands_alone_where_the_set_is_empty() {
    let empty = "episodes 1\nlinks 0\nwidth 0\napart\n";
    assert_eq!(printed_as_report(&DOOR, PLENTY, WORK_WORDS), (Outcome::Report(2), empty.into()));
    let empty = "episodes 0\nlinks 0\nwidth 0\napart\n";
    assert_eq!(printed_as_report(&[0x1000_0000, 0xF000_0000], 2, WORK_WORDS), (Outcome::Report(2), empty.into()));
}

#[test]
fn a_duet_stands_once_in_the_apart_set_and_in_two_threads() {
    let duet = [0x1000_0001, 0x9002_0000, 0xF000_0000];
    let lines = "episodes 1\nlinks 0\nwidth 2\napart 0\nthread 0\nthread 0\n";
    assert_eq!(printed_as_report(&duet, PLENTY, WORK_WORDS), (Outcome::Report(7), lines.into()));
}

#[test]
fn figures_have_as_many_digits_as_they_need() {
    // 200 episodes in one thread: 199 links, each given twice.
    let mut log = vec![0x1000_00C8];
    (0..199).for_each(|v| log.extend([0x2000_0000 | v, 0x3000_0001 + v, 0x3000_0001 + v]));
    log.push(0xF000_018E);
    let steps: String = (0..200).map(|v| format!(" {v}")).collect();
    let lines = format!("episodes 200\nlinks 199\nwidth 1\napart 199\nthread{steps}\n");
    assert_eq!(printed_as_report(&log, PLENTY, WORK_WORDS), (Outcome::Report(204), lines));
    // 200 threads.
    let threads: String = (0..200).map(|v| format!("thread {v}\n")).collect();
    let lines = format!("episodes 200\nlinks 0\nwidth 200\napart{steps}\n{threads}");
    assert_eq!(printed_as_report(&[0x1000_00C8, 0xF000_0000], PLENTY, WORK_WORDS), (Outcome::Report(602), lines));
}

#[test]
fn a_loop_has_two_lines() {
    let lines = "refused 13 at 2\nloop 0 1\n";
    assert_eq!(printed_as_report(&AROUND, PLENTY, WORK_WORDS), (Outcome::Loop(2), lines.into()));
    let own = [0x1000_00C8, 0x2000_00C7, 0x3000_00C7, 0xF000_0001];
    assert_eq!(printed_as_report(&own, PLENTY, WORK_WORDS), (Outcome::Loop(1), "refused 13 at 1\nloop 199\n".into()));
}

#[test]
fn a_refused_log_has_a_line() {
    let rows: [(&[u32], u32, usize); 5] = [
        (&[], 1, 0),
        (&[0x1200_0005, 0xF000_0000], 18, 0),
        (&[0x1000_0005, 0x2000_0000, 0x3000_0001, 0xF000_0000], 10, 3),
        (&[0x1000_0005, 0x9003_0003, 0xF000_0000], 19, 1),
        (&[0x1000_0079, 0x9001_0000, 0xF000_0000], 20, 1),
    ];
    for (log, number, place) in rows {
        let due = (refusal(number, place), format!("refused {number} at {place}\n"));
        assert_eq!(printed_as_report(log, PLENTY, WORK_WORDS), due);
        assert_eq!(refused(&bytes_from_words(log), 0, 0), due);
    }
}

#[test]
fn bytes_are_refused_by_14_then_15() {
    let rows = [
        (LOG_BYTES + 1, 14, 33256, "refused 14 at 33256\n"),
        (LOG_BYTES + 4, 14, 33256, "refused 14 at 33256\n"),
        (200_001, 14, 33256, "refused 14 at 33256\n"),
        (LOG_BYTES - 1, 15, 33255, "refused 15 at 33255\n"),
        (5, 15, 5, "refused 15 at 5\n"),
        (1, 15, 1, "refused 15 at 1\n"),
    ];
    for (count, number, place, line) in rows {
        let log = vec![0x10; count];
        let due = (refusal(number, place), line.to_string());
        assert_eq!(refused(&log, PLENTY, WORK_WORDS), due);
        // 11 and 12 are of the words: they come behind.
        assert_eq!(refused(&log, 0, 0), due);
    }
    assert_eq!(refused(&[0x10; LOG_BYTES], PLENTY, WORK_WORDS), (refusal(3, 0), "refused 3 at 0\n".into()));
}

#[test]
fn output_and_work_words_too_few_are_refused_with_a_text() {
    let whole = bytes_from_words(&WHOLE);
    assert_eq!(refused(&whole, 20, WORK_WORDS), (refusal(11, 21), "refused 11 at 21\n".into()));
    assert_eq!(refused(&whole, 0, 0), (refusal(11, 21), "refused 11 at 21\n".into()));
    assert_eq!(refused(&whole, 21, WORK_WORDS - 1), (refusal(12, 16384), "refused 12 at 16384\n".into()));
    assert_eq!(refused(&bytes_from_words(&AROUND), 8, 0), (refusal(12, 16384), "refused 12 at 16384\n".into()));
}

#[test]
fn a_text_buffer_one_byte_too_short_changes_nothing() {
    let long = vec![0x10; LOG_BYTES + 1];
    for log in [&bytes_from_words(&WHOLE)[..], &bytes_from_words(&AROUND), &[], &[0; 5], &long] {
        for text_bytes in [TEXT_BYTES - 1, 70, 0] {
            let (mut bytes, mut out, mut work) = (vec![OLD_BYTE; text_bytes], vec![OLD; PLENTY], vec![OLD; WORK_WORDS]);
            let answer = text(log, &mut bytes, &mut out, &mut work);
            assert_eq!(answer, Err(Refusal { number: 11, place: 42640 }));
            assert!(bytes.iter().all(|byte| *byte == OLD_BYTE));
            assert!(out.iter().chain(&work).all(|word| *word == OLD));
        }
    }
}

#[test]
fn bytes_need_no_alignment() {
    for shift in 0..4 {
        let mut bytes = vec![0xFF; shift];
        bytes.extend(bytes_from_words(&WHOLE));
        assert_eq!(printed(&bytes[shift..]), WHOLE_TEXT);
        let (mut lent, mut out, mut work) = (vec![OLD_BYTE; shift + TEXT_BYTES], vec![OLD; PLENTY], vec![OLD; WORK_WORDS]);
        let answer = text(&bytes[shift..], &mut lent[shift..], &mut out, &mut work);
        assert_eq!(answer, Ok(Printed { outcome: Outcome::Report(13), bytes: WHOLE_TEXT.len() }));
        assert_eq!(&lent[shift..shift + WHOLE_TEXT.len()], WHOLE_TEXT.as_bytes());
        assert!(lent[..shift].iter().chain(&lent[shift + WHOLE_TEXT.len()..]).all(|byte| *byte == OLD_BYTE));
    }
}

#[test]
fn the_samples_have_the_texts_that_are_stored_and_displayed() {
    let mut count = 0;
    for entry in std::fs::read_dir(concat!(env!("CARGO_MANIFEST_DIR"), "/../samples")).expect("the samples are there") {
        let path = entry.expect("an entry is read").path();
        if path.extension().is_some_and(|ending| ending == "log") {
            let log = std::fs::read(&path).expect("the log is read");
            let stored = std::fs::read_to_string(path.with_extension("out")).expect("the text is read");
            assert_eq!(printed(&log), stored, "{}", path.display());
            assert_eq!(displayed(&log), stored, "{}", path.display());
            count += 1;
        }
    }
    assert!(count >= 8, "{count} samples");
}

/// A log of either version, without voices words, with some, or with doors alone: its links go to higher episodes, or anywhere.
fn any_log(next: &mut impl FnMut(u32) -> u32) -> Vec<u32> {
    let (version, size, rising, voiced) = (next(2), next(4), next(3) > 0, next(8));
    let n = [1 + next(6), 1 + next(20), 1 + next(120), 200][size as usize];
    let mut words = vec![head_word(version, n).expect("a head has room")];
    if voiced < 4 && n <= 120 {
        let doors = voiced == 0;
        for v in 0..n {
            if doors || next(3) == 0 {
                words.push(voices_word(v, if doors { 0 } else { next(3) }).expect("a voices word has room"));
            }
        }
    }
    let mut count = 0;
    for _ in 0..next(2 * n) {
        let (mut from, mut to) = (next(n), next(n));
        if rising && from > to {
            (from, to) = (to, from);
        }
        if rising && from == to {
            continue;
        }
        words.push(0x2000_0000 | from);
        for _ in 0..1 + next(2) {
            words.push(to_word(to, [0, 45, 360, 361][next(4) as usize]).expect("a to word has room"));
            count += 1;
        }
    }
    words.push(0xF000_0000 | count);
    words
}

#[test]
fn what_the_wrapper_displays_is_the_text() {
    let mut next = random();
    let (mut reports, mut empty, mut loops, mut refusals, mut cut) = (0, 0, 0, 0, 0);
    for i in 0..600 {
        let mut words = any_log(&mut next);
        if i % 4 == 0 {
            // Damage of one word: most of these logs are refused.
            let place = next(words.len() as u32) as usize;
            words[place] = [next(16) << 28 | next(300), next(1 << 16) << 16 | next(1 << 16), words[place] ^ 1][next(3) as usize];
        }
        let mut log = bytes_from_words(&words);
        if i % 20 == 0 {
            log.truncate(log.len() - 1 - next(3) as usize);
        } else if i % 20 == 10 {
            log.resize(LOG_BYTES - 4 + 2 * next(5) as usize, 0x30);
        }
        let text = printed(&log);
        assert_eq!(displayed(&log), text, "{words:08X?}");
        match (text.starts_with("refused 13 "), text.starts_with("refused ")) {
            (true, _) => loops += 1,
            (_, true) if words_from_bytes(&log).is_err() => cut += 1,
            (_, true) => refusals += 1,
            _ => reports += 1,
        }
        empty += u32::from(text.contains("\napart\n"));
    }
    for met in [reports, empty, loops, refusals, cut] {
        assert!(met >= 10, "{reports} reports, {empty} with no member, {loops} loops, {refusals} and {cut} refusals");
    }
}
