//! The questions put to a log, to the lent buffers, to a report's words and to the bytes of a log.

use crate::words::{APART, END, FROM, HEAD, LARGEST, MOST_VOICES, STEP, THREAD, TO, VOICES, WIDTH};
use crate::words::{episode, episodes, kind, number, version, voices, word};
use std::collections::BTreeSet;

/// A refusal: its number and its place.
#[derive(Clone, Copy, Debug, PartialEq, Eq)]
pub struct Refusal {
    pub number: u32,
    pub place: usize,
}

/// The work words that a report, a copy or a text needs.
pub const WORK: usize = 16_384;

/// The bytes that a text buffer needs.
pub const TEXT: usize = 42_640;

const LAST_VERSION: usize = 1;
const MOST_EPISODES: usize = 200;
const MOST_LINKS: usize = 4_096;
/// The most bytes of a log.
pub const MOST_BYTES: usize = 33_256;

/// The most episodes of a log with a voices word.
pub const MOST_WITH_VOICES: usize = 120;

/// What a log that passes has: its episodes, its to words and its voices words.
#[derive(Clone, Copy, Debug, PartialEq, Eq)]
pub struct Reading {
    pub n: usize,
    pub links: usize,
    pub voices: usize,
}

fn no<T>(number: u32, place: usize) -> Result<T, Refusal> {
    Err(Refusal { number, place })
}

/// The questions put to a voices word, in order; the episodes that voices words before it name are given.
fn voices_refused(n: usize, named: &BTreeSet<usize>, given: u32) -> Option<u32> {
    let no = [
        (20, n > MOST_WITH_VOICES),
        (7, episode(given) >= n),
        (19, voices(given) > MOST_VOICES),
        (21, named.contains(&episode(given))),
    ];
    no.into_iter().find(|question| question.1).map(|question| question.0)
}

/// Questions 1 to 10, with 18 between 2 and 3, and with 20, 7, 19 and 21 at each voices word: what the log has, or the refusal.
pub fn in_order(log: &[u32]) -> Result<Reading, Refusal> {
    if log.len() < 2 {
        return no(1, 0);
    }
    if kind(log[0]) != HEAD {
        return no(2, 0);
    }
    if version(log[0]) > LAST_VERSION {
        return no(18, 0);
    }
    let n = episodes(log[0]);
    if n > MOST_EPISODES {
        return no(3, 0);
    }
    let last = log.len() - 1;
    let mut from_came = false;
    let mut links = 0;
    let mut named = BTreeSet::new();
    for place in 1..last {
        let is_from = kind(log[place]) == FROM;
        let is_to = kind(log[place]) == TO;
        let is_voices = kind(log[place]) == VOICES && !from_came;
        if !is_from && !is_to && !is_voices {
            return no(4, place);
        }
        if is_voices {
            if let Some(number) = voices_refused(n, &named, log[place]) {
                return no(number, place);
            }
            named.insert(episode(log[place]));
        }
        if is_to && !from_came {
            return no(5, place);
        }
        if is_from && (place + 1 == last || kind(log[place + 1]) != TO) {
            return no(6, place);
        }
        // Of a to word the later episode alone is looked at, of a from word the whole number.
        if (is_to && episode(log[place]) >= n) || (is_from && number(log[place]) >= n) {
            return no(7, place);
        }
        if is_to && links == MOST_LINKS {
            return no(8, place);
        }
        from_came |= is_from;
        links += usize::from(is_to);
    }
    if kind(log[last]) != END {
        return no(9, last);
    }
    if number(log[last]) != links {
        return no(10, last);
    }
    Ok(Reading { n, links, voices: named.len() })
}

/// The output words that a report needs, for n episodes and so many voices words.
pub fn report_need(n: usize, voices: usize) -> usize {
    let q = (n + 1) * (n + 1) / 4;
    if voices == 0 { 2 + 2 * n + q } else { 2 + 3 * n + 2 * q }
}

/// The output words that a fair or a trimmed copy needs, for so many to words and voices words.
pub fn copy_need(links: usize, voices: usize) -> usize {
    2 + 2 * links + voices
}

/// Questions 11 and 12, for lent buffers of these lengths.
pub fn lent(need: usize, out: usize, work: usize) -> Result<(), Refusal> {
    if out < need {
        return no(11, need);
    }
    if work < WORK {
        return no(12, WORK);
    }
    Ok(())
}

/// What is asked before all else where a text is wanted: whether the text buffer is long enough.
pub fn text_lent(text: usize) -> Result<(), Refusal> {
    if text < TEXT { no(11, TEXT) } else { Ok(()) }
}

/// How many apart words a whole report has, and where the steps of each of its threads stand: the place of the first step, and
/// how many there are.
pub struct Parts {
    pub apart: usize,
    threads: Vec<(usize, usize)>,
}

impl Parts {
    /// Question 17: the stretch of thread `i`.
    pub fn thread(&self, i: usize) -> Result<(usize, usize), Refusal> {
        self.threads.get(i).copied().ok_or(Refusal { number: 17, place: 0 })
    }

    /// How many threads there are.
    pub fn count(&self) -> usize {
        self.threads.len()
    }
}

/// Question 16. The words are taken apart by their kinds alone, the report of these parts is written again, and it
/// must be the same words.
pub fn parts(words: &[u32]) -> Result<Parts, Refusal> {
    let mut apart = 0;
    let mut threads: Vec<(usize, usize)> = Vec::new();
    let mut again = vec![0; words.len()];
    for (place, &given) in words.iter().enumerate() {
        match kind(given) {
            APART => {
                apart += 1;
                again[place] = given;
            }
            THREAD => threads.push((place + 1, 0)),
            STEP => {
                let Some(thread) = threads.last_mut() else { return no(16, 0) };
                thread.1 += 1;
                again[place] = given;
            }
            _ => {}
        }
    }
    let count = 2 + apart + threads.iter().map(|thread| 1 + thread.1).sum::<usize>();
    if count != words.len() || apart > threads.len() || count - 1 > LARGEST as usize || threads.iter().any(|thread| thread.1 == 0)
    {
        return no(16, 0);
    }
    again[0] = word(WIDTH, threads.len());
    let mut place = 1 + apart;
    for &(start, length) in &threads {
        if start != place + 1 {
            return no(16, 0);
        }
        again[place] = word(THREAD, length);
        place += 1 + length;
    }
    again[count - 1] = word(END, count - 1);
    let apart_first = words[1..1 + apart].iter().all(|&given| kind(given) == APART);
    if !apart_first || again != words {
        return no(16, 0);
    }
    Ok(Parts { apart, threads })
}

/// Questions 14 and 15: the words of these bytes.
pub fn bytes(input: &[u8]) -> Result<Vec<u32>, Refusal> {
    if input.len() > MOST_BYTES {
        return no(14, MOST_BYTES);
    }
    if !input.len().is_multiple_of(4) {
        return no(15, input.len());
    }
    let from_four = |four: &[u8]| four.iter().rev().fold(0, |sum, &byte| sum << 8 | u32::from(byte));
    Ok(input.chunks(4).map(from_four).collect())
}
