//! The printed text: of a refusal, of a loop and of a report.

use super::Refusal;
use crate::checkers::Shown;

/// A line: its name, and one space before each figure.
pub fn line(name: &str, figures: &[usize]) -> String {
    let figures: String = figures.iter().map(|figure| format!(" {figure}")).collect();
    format!("{name}{figures}\n")
}

pub fn refusal_text(refusal: Refusal) -> String {
    format!("refused {} at {}\n", refusal.number, refusal.place)
}

pub fn loop_text(steps: &[usize]) -> String {
    refusal_text(Refusal { number: 13, place: steps.len() }) + &line("loop", steps)
}

pub fn report_text(n: usize, links: usize, shown: &Shown) -> String {
    let mut text =
        line("episodes", &[n]) + &line("links", &[links]) + &line("width", &[shown.width]) + &line("apart", &shown.apart);
    for thread in &shown.threads {
        text += &line("thread", thread);
    }
    text
}
