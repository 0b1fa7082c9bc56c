//! A log with all that is expected of calls on it, and the bytes of one.

use super::copies::{by_pairs, by_sorting, copy_words};
use super::counting::{by_all_pairs, by_set};
use super::furthest::{FEW, FEWER, by_flow, by_subsets, cover_by_unions, is_furthest};
use super::joining::by_least;
use super::trimming::{by_search, by_threads, joined_without};
use super::voicing::by_episodes;
use super::{Graph, Reading, Refusal, in_order, noted, said};
use super::{printing, questions};
use crate::checkers::Shown;
use crate::counts::{Links, LongPauses, Pauses, Voiced};
use crate::words::{self, Noted, Said, older, version};
use std::cell::OnceCell;

pub struct Subject {
    pub words: Vec<u32>,
    pub reading: Result<Reading, Refusal>,
    /// What is expected of a log that passes.
    pub passed: Option<Passed>,
}

/// The links and the graph of a log that passes. What calls on it have to show is worked out when it is first asked for.
pub struct Passed {
    version: usize,
    noted: Vec<Noted>,
    said: Vec<Said>,
    pub graph: Graph,
    has_loop: OnceCell<bool>,
    furthest: OnceCell<Vec<usize>>,
    fair: OnceCell<Vec<u32>>,
    trimmed: OnceCell<Vec<u32>>,
    count: OnceCell<usize>,
    pauses: OnceCell<Vec<Pauses>>,
    met: OnceCell<Vec<Links>>,
    long_pauses: OnceCell<LongPauses>,
    voiced: OnceCell<Vec<Voiced>>,
}

impl Subject {
    pub fn new(words: Vec<u32>) -> Subject {
        let reading = in_order(&words);
        let passed = reading.ok().map(|_| Passed {
            version: version(words[0]),
            noted: noted(&words),
            said: said(&words),
            graph: graph(&words),
            has_loop: OnceCell::new(),
            furthest: OnceCell::new(),
            fair: OnceCell::new(),
            trimmed: OnceCell::new(),
            count: OnceCell::new(),
            pauses: OnceCell::new(),
            met: OnceCell::new(),
            long_pauses: OnceCell::new(),
            voiced: OnceCell::new(),
        });
        Subject { words, reading, passed }
    }
}

/// The bytes of a log, and the log, or the refusal 14 or 15 of the bytes.
pub struct Input<'a> {
    pub bytes: Vec<u8>,
    pub log: Result<&'a Subject, Refusal>,
}

impl<'a> Input<'a> {
    /// The bytes of this log.
    pub fn of(log: &'a Subject) -> Input<'a> {
        Input::new(words::bytes(&log.words), log)
    }

    /// These bytes, which are refused or those of the log.
    pub fn new(bytes: Vec<u8>, log: &'a Subject) -> Input<'a> {
        let read = questions::bytes(&bytes).map(|words| {
            assert!(words == log.words, "the bytes are those of the log");
            log
        });
        Input { bytes, log: read }
    }
}

impl Passed {
    fn has_loop(&self) -> bool {
        *self.has_loop.get_or_init(|| self.graph.has_loop())
    }

    /// The furthest apart set, whose weight is the width; none where there is a loop.
    pub fn furthest(&self) -> Option<&[usize]> {
        (!self.has_loop()).then(|| &self.furthest.get_or_init(|| furthest(&self.graph))[..])
    }

    /// The link count.
    pub fn link_count(&self) -> usize {
        *self.count.get_or_init(|| link_count(self.version, self.graph.n, &self.noted))
    }

    /// The text of a log without loops, whose furthest apart set this is, with these threads.
    pub fn text(&self, furthest: &[usize], threads: Vec<Vec<usize>>) -> String {
        let shown = Shown { width: self.graph.weight(furthest), apart: furthest.to_vec(), threads };
        printing::report_text(self.graph.n, self.link_count(), &shown)
    }

    /// The fair copy.
    pub fn fair_copy(&self) -> &[u32] {
        self.fair.get_or_init(|| fair_copy(self.version, &self.graph.voices, &self.noted))
    }

    /// The kinds of pauses that the log has, for the counts.
    pub fn pauses(&self) -> &[Pauses] {
        self.pauses.get_or_init(|| Pauses::met(&self.noted))
    }

    /// The kinds of links that the log, which has these words, has, for the counts.
    pub fn links(&self, words: &[u32]) -> &[Links] {
        self.met.get_or_init(|| Links::met(words, &self.graph, self.has_loop()))
    }

    /// The least pauses of the log, which has these words, and what its long pauses do, for the counts.
    pub fn long_pauses(&self, words: &[u32]) -> &LongPauses {
        self.long_pauses.get_or_init(|| {
            let all = Graph::of_all(words);
            // Of larger logs this is not sought: it takes too long.
            let round = || {
                let stay = self.trimmed_copy().filter(|_| all.n <= 60).map_or(Vec::new(), |copy| Graph::of(copy).links);
                stay.into_iter().any(|link| joined_without(&all, link))
            };
            LongPauses::of(self.version, all.n, &self.noted, (all.has_loop(), self.has_loop()), round)
        })
    }

    /// The voices of the log, for the counts.
    pub fn voiced(&self) -> &[Voiced] {
        self.voiced.get_or_init(|| {
            // Of larger logs this is not sought: it takes too long.
            let furthest = self.furthest().filter(|_| self.graph.n <= 60);
            let more = || furthest.is_some_and(|set| by_flow(&self.graph.with_one_voice()).len() > set.len());
            Voiced::met(self.version, &self.said, &self.graph, self.has_loop(), more)
        })
    }

    /// The trimmed copy; none where there is a loop.
    pub fn trimmed_copy(&self) -> Option<&[u32]> {
        (!self.has_loop()).then(|| &self.trimmed.get_or_init(|| trimmed_copy(&self.graph))[..])
    }
}

/// The graph of a log that passes. Where more than one road can be gone, all must lead to the same answer.
fn graph(words: &[u32]) -> Graph {
    let graph = Graph::of(words);
    if graph.n <= FEW {
        let links = by_least(version(words[0]), graph.n, &noted(words));
        assert_eq!(graph.links, links, "the reference: words and least pauses differ");
        let voices = by_episodes(graph.n, &said(words));
        assert_eq!(graph.voices, voices, "the reference: voices words and episodes differ");
    }
    graph
}

/// The furthest apart set.
fn furthest(graph: &Graph) -> Vec<usize> {
    let furthest = by_flow(graph);
    if graph.n <= FEW {
        assert_eq!(furthest, by_subsets(graph), "the reference: flow and subsets differ");
    } else {
        assert!(is_furthest(graph, &furthest), "the reference: the flow's set is not the furthest");
    }
    if graph.n <= FEWER {
        assert_eq!(graph.weight(&furthest), cover_by_unions(graph), "the reference: apart set and cover differ");
    }
    furthest
}

/// The link count.
fn link_count(version: usize, n: usize, noted: &[Noted]) -> usize {
    let count = by_set(version, noted);
    if n <= FEW {
        assert_eq!(count, by_all_pairs(version, n, noted), "the reference: set and pairs differ");
    }
    count
}

/// The fair copy: its version, the voices other than one, and each link that was heard with its least pause.
fn fair_copy(version: usize, voices: &[usize], noted: &[Noted]) -> Vec<u32> {
    let links = by_sorting(noted);
    if voices.len() <= FEW {
        assert_eq!(links, by_pairs(voices.len(), noted), "the reference: sorting and pairs differ");
    }
    copy_words(version, voices, &links)
}

/// The trimmed copy: the voices other than one, and the links that stay, without a pause, in version 0.
fn trimmed_copy(graph: &Graph) -> Vec<u32> {
    let stay = by_search(graph);
    if graph.n <= FEW {
        assert_eq!(stay, by_threads(graph), "the reference: search and threads differ");
    }
    copy_words(0, &graph.voices, &older(&stay))
}
