//! A model of the library that is made from the reference. With it the checks can be tried without the library: they must take all
//! its answers, and catch each fault in them. It shows nothing of the library.

use crate::checkers::Shown;
use crate::lent::Lent;
use crate::reference::{Graph, Refusal, WORK, copy_need, copy_words, furthest, in_order, least, lent, noted, parts, report_need};
use crate::reference::{bytes, loop_text, refusal_text, report_text, smallest_cover, text_lent, trimmed};
use crate::services::{Answer, Door, ReadAnswer, Services, TextAnswer, ThreadAnswer};
use crate::words::{LOOP, STEP, older, report, version, word};
use std::slice::{from_raw_parts, from_raw_parts_mut};

pub struct Model;

/// What a call that lends an output leaves: number and value, and the words that the output begins with.
struct Left(u32, usize, Vec<u32>);

/// A loop of the graph, from its smallest episode; none where there is no loop.
pub fn a_loop(graph: &Graph) -> Option<Vec<usize>> {
    let first = (0..graph.n).find(|&v| graph.ways_from(v)[v])?;
    let mut paths = vec![vec![first]];
    let mut seen = vec![false; graph.n];
    loop {
        let mut longer = Vec::new();
        for path in paths {
            for &to in &graph.next[path[path.len() - 1]] {
                if to == first {
                    return Some(path);
                }
                if !seen[to] {
                    seen[to] = true;
                    longer.push([&path[..], &[to]].concat());
                }
            }
        }
        paths = longer;
    }
}

/// The apart set and the threads of a report on the graph, which has no loop.
fn parts_of(graph: &Graph) -> (Vec<usize>, Vec<Vec<usize>>) {
    let (apart, cover) = (furthest(graph), smallest_cover(graph));
    let holding = |member: &usize| cover.iter().filter(|thread| thread.contains(member)).cloned().collect::<Vec<_>>();
    let threads = apart.iter().flat_map(holding).collect();
    (apart, threads)
}

/// The words of a report on the graph, or of a loop.
fn report_words(graph: &Graph) -> Left {
    if let Some(steps) = a_loop(graph) {
        let shown = std::iter::once(word(LOOP, steps.len())).chain(steps.iter().map(|&step| word(STEP, step)));
        return Left(13, steps.len(), shown.collect());
    }
    let (apart, threads) = parts_of(graph);
    let words = report(&apart, &threads);
    Left(0, words.len(), words)
}

fn fair_copy_words(log: &[u32], graph: &Graph) -> Left {
    let words = copy_words(version(log[0]), &graph.voices, &least(&noted(log)));
    Left(0, words.len(), words)
}

fn trimmed_copy_words(_: &[u32], graph: &Graph) -> Left {
    if graph.has_loop() {
        return report_words(graph);
    }
    let words = copy_words(0, &graph.voices, &older(&trimmed(graph)));
    Left(0, words.len(), words)
}

/// The report on a log that passes; none where there is a loop.
pub fn report_on(log: &[u32]) -> Option<Vec<u32>> {
    let left = report_words(&Graph::of(log));
    (left.0 == 0).then_some(left.2)
}

/// The trimmed copy of a log that passes; none where there is a loop.
pub fn trimmed_copy_of(log: &[u32]) -> Option<Vec<u32>> {
    let left = trimmed_copy_words(log, &Graph::of(log));
    (left.0 == 0).then_some(left.2)
}

fn read(log: &[u32]) -> ReadAnswer {
    match in_order(log) {
        Ok(read) => ReadAnswer { number: 0, place: 0, episodes: read.n, links: read.links },
        Err(refusal) => ReadAnswer { number: refusal.number, place: refusal.place, episodes: 0, links: 0 },
    }
}

fn links(log: &[u32]) -> Answer {
    match in_order(log) {
        Ok(_) => Answer { number: 0, value: Graph::of(log).links.len() },
        Err(refusal) => Answer { number: refusal.number, value: refusal.place },
    }
}

fn thread(words: &[u32], i: usize) -> ThreadAnswer {
    match parts(words).and_then(|parts| parts.thread(i)) {
        Ok((start, length)) => ThreadAnswer { number: 0, start, length },
        Err(refusal) => ThreadAnswer { number: refusal.number, start: 0, length: 0 },
    }
}

/// A call that lends an output: it needs so many words, and leaves what `answer` says.
fn lending(
    (log, out, work): (&[u32], &mut [u32], &mut [u32]),
    need: impl FnOnce(&[u32]) -> usize,
    answer: impl FnOnce(&[u32], &Graph) -> Left,
) -> Answer {
    let refused = in_order(log).and_then(|_| lent(need(log), out.len(), work.len()));
    if let Err(refusal) = refused {
        return Answer { number: refusal.number, value: refusal.place };
    }
    let Left(number, value, words) = answer(log, &Graph::of(log));
    out[..words.len()].copy_from_slice(&words);
    work[..WORK].fill(0);
    Answer { number, value }
}

/// The words that a report on a log that passes needs.
fn report_needed(log: &[u32]) -> usize {
    in_order(log).map_or(0, |read| report_need(read.n, read.voices))
}

/// The words that a copy of it needs.
fn copy_needed(log: &[u32]) -> usize {
    in_order(log).map_or(0, |read| copy_need(read.links, read.voices))
}

fn report_call(lent: (&[u32], &mut [u32], &mut [u32])) -> Answer {
    lending(lent, report_needed, |_, graph| report_words(graph))
}

fn fair_copy_call(lent: (&[u32], &mut [u32], &mut [u32])) -> Answer {
    lending(lent, copy_needed, fair_copy_words)
}

fn trimmed_copy_call(lent: (&[u32], &mut [u32], &mut [u32])) -> Answer {
    lending(lent, copy_needed, trimmed_copy_words)
}

/// The text of a log that passes.
fn text_on(log: &[u32]) -> String {
    let graph = Graph::of(log);
    if let Some(steps) = a_loop(&graph) {
        return loop_text(&steps);
    }
    let (apart, threads) = parts_of(&graph);
    report_text(graph.n, graph.links.len(), &Shown { width: threads.len(), apart, threads })
}

/// The text that is right for these bytes, on buffers that suffice.
pub fn text_of(input: &[u8]) -> String {
    match bytes(input).and_then(|log| in_order(&log).map(|_| log)) {
        Ok(log) => text_on(&log),
        Err(refusal) => refusal_text(refusal),
    }
}

fn text_call(log: &[u8], text: &mut [u8], out: &mut [u32], work: &mut [u32]) -> TextAnswer {
    if let Err(refusal) = text_lent(text.len()) {
        return TextAnswer { number: refusal.number, value: refusal.place, bytes: 0 };
    }
    let (number, value, written) = match bytes(log) {
        Err(refusal) => (refusal.number, refusal.place, refusal_text(refusal)),
        Ok(log) => match report_call((&log, out, work)) {
            Answer { number: number @ (0 | 13), value } => (number, value, text_on(&log)),
            Answer { number, value } => (number, value, refusal_text(Refusal { number, place: value })),
        },
    };
    text[..written.len()].copy_from_slice(written.as_bytes());
    TextAnswer { number, value, bytes: written.len() }
}

impl Services for Model {
    fn read(&mut self, _: Door, log: &mut Lent) -> ReadAnswer {
        read(log.lent())
    }

    fn links(&mut self, _: Door, log: &mut Lent) -> Answer {
        links(log.lent())
    }

    fn report(&mut self, _: Door, log: &mut Lent, out: &mut Lent, work: &mut Lent) -> Answer {
        report_call((log.lent(), out.lent_mut(), work.lent_mut()))
    }

    fn fair_copy(&mut self, _: Door, log: &mut Lent, out: &mut Lent, work: &mut Lent) -> Answer {
        fair_copy_call((log.lent(), out.lent_mut(), work.lent_mut()))
    }

    fn trimmed_copy(&mut self, _: Door, log: &mut Lent, out: &mut Lent, work: &mut Lent) -> Answer {
        trimmed_copy_call((log.lent(), out.lent_mut(), work.lent_mut()))
    }

    fn thread(&mut self, _: Door, report: &mut Lent, i: usize) -> ThreadAnswer {
        thread(report.lent(), i)
    }

    fn text(&mut self, _: Door, log: &mut Lent<u8>, text: &mut Lent<u8>, out: &mut Lent, work: &mut Lent) -> TextAnswer {
        text_call(log.lent(), text.lent_mut(), out.lent_mut(), work.lent_mut())
    }
}

/// The model's functions as those of a build: each takes pointers and lengths of slices of which no two share a word.
pub mod header {
    use super::*;

    pub unsafe extern "C" fn read(log: *const u32, log_words: usize) -> ReadAnswer {
        // SAFETY: the caller gives the pointer and the length of a slice.
        super::read(unsafe { from_raw_parts(log, log_words) })
    }

    pub unsafe extern "C" fn links(log: *const u32, log_words: usize) -> Answer {
        // SAFETY: the caller gives the pointer and the length of a slice.
        super::links(unsafe { from_raw_parts(log, log_words) })
    }

    pub unsafe extern "C" fn thread(report: *const u32, report_words: usize, i: usize) -> ThreadAnswer {
        // SAFETY: the caller gives the pointer and the length of a slice.
        super::thread(unsafe { from_raw_parts(report, report_words) }, i)
    }

    pub unsafe extern "C" fn text(
        log: *const u8,
        log_bytes: usize,
        text: *mut u8,
        text_bytes: usize,
        out: *mut u32,
        out_words: usize,
        work: *mut u32,
        work_words: usize,
    ) -> TextAnswer {
        // SAFETY: the caller gives the pointers and the lengths of four slices, and no two of them share a byte.
        let (log, text, out, work) = unsafe {
            let (log, text) = (from_raw_parts(log, log_bytes), from_raw_parts_mut(text, text_bytes));
            (log, text, from_raw_parts_mut(out, out_words), from_raw_parts_mut(work, work_words))
        };
        super::text_call(log, text, out, work)
    }

    macro_rules! lending {
        ($name:ident, $call:ident) => {
            pub unsafe extern "C" fn $name(
                log: *const u32,
                log_words: usize,
                out: *mut u32,
                out_words: usize,
                work: *mut u32,
                work_words: usize,
            ) -> Answer {
                // SAFETY: the caller gives the pointers and the lengths of three slices, and no two of them share a word.
                super::$call(unsafe {
                    (from_raw_parts(log, log_words), from_raw_parts_mut(out, out_words), from_raw_parts_mut(work, work_words))
                })
            }
        };
    }

    lending!(report, report_call);
    lending!(fair_copy, fair_copy_call);
    lending!(trimmed_copy, trimmed_copy_call);
}

#[cfg(test)]
mod tests {
    use super::*;
    use crate::calls::Caller;
    use crate::cases;
    use crate::random::round_seed;
    use crate::rounds::round;

    #[test]
    fn the_checks_take_its_answers() {
        let mut caller = Caller::new(Model);
        assert!(cases::all(&mut caller).is_ok());
        assert!((0..200).all(|index| round(&mut caller, round_seed(3, 0, index)).is_ok()));
    }

    #[test]
    fn its_loop_is_one_of_the_graph() {
        let graph = |links: &[(usize, usize)]| Graph::new(vec![0; 4], links.to_vec());
        assert_eq!(a_loop(&graph(&[(0, 1), (1, 2), (2, 3)])), None);
        assert_eq!(a_loop(&graph(&[(0, 1), (3, 2), (2, 1), (1, 3)])), Some(vec![1, 3, 2]));
        assert_eq!(a_loop(&graph(&[(0, 1), (2, 2)])), Some(vec![2]));
    }
}
