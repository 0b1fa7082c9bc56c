//! The answers that are expected, worked out anew: the questions, the links of a log that count, its graph, its link count,
//! the voices of its episodes, its width, its furthest apart set, its copies and its text.

mod copies;
mod counting;
mod furthest;
mod graph;
mod joining;
mod printing;
mod questions;
mod subject;
mod trimming;
mod voicing;

pub use copies::{by_sorting as least, copy_words};
pub use furthest::{by_flow as furthest, smallest_cover};
pub use graph::{Graph, noted, said};
pub use printing::{line, loop_text, refusal_text, report_text};
pub use questions::{MOST_BYTES, MOST_WITH_VOICES, Parts, Reading, Refusal, TEXT, WORK};
pub use questions::{bytes, copy_need, in_order, lent, parts, report_need, text_lent};
pub use subject::{Input, Passed, Subject};
pub use trimming::{by_search as trimmed, joined_past};
pub use voicing::by_words as voices;
