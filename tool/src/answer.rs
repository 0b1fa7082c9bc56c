//! What the library says of a log: the text that is printed for it, which is proved, and its figures as they stand there.

use zohapy::{Failure, Outcome, Refusal, Report, TEXT_BYTES, WORK_WORDS, head_version, report_words, text};

/// The buffers of text calls, lent anew for each log.
pub struct Buffers {
    text: Vec<u8>,
    out: Vec<u32>,
    work: Vec<u32>,
}

/// The answer to a log: its printed text, and the version of a log that has a report.
#[derive(Clone, Copy, Debug, PartialEq, Eq)]
pub struct Answer<'a> {
    text: &'a str,
    outcome: Outcome,
    version: Option<u32>,
}

impl Buffers {
    pub fn new() -> Buffers {
        Buffers { text: vec![0; TEXT_BYTES], out: vec![0; report_words(200)], work: vec![0; WORK_WORDS] }
    }

    /// The answer to the log with these bytes. The buffers have what every log needs, so refusals 11 and 12 do not occur.
    pub fn answer(&mut self, log: &[u8]) -> Answer<'_> {
        let printed = text(log, &mut self.text, &mut self.out, &mut self.work).expect("the text buffer is long enough");
        let text = str::from_utf8(&self.text[..printed.bytes]).expect("a text has letters, figures, spaces and newlines");
        let version = match (printed.outcome, log) {
            (Outcome::Report(_), [a, b, c, d, ..]) => Some(head_version(u32::from_le_bytes([*a, *b, *c, *d]))),
            _ => None,
        };
        Answer { text, outcome: printed.outcome, version }
    }
}

impl<'a> Answer<'a> {
    /// The printed lines.
    pub fn text(&self) -> &'a str {
        self.text
    }

    /// The version of a log that has a report.
    pub fn version(&self) -> Option<u32> {
        self.version
    }

    /// The width, or the refusal.
    pub fn width(&self) -> Result<usize, Refusal> {
        match self.outcome {
            Outcome::Report(_) => Ok(self.number("width")),
            Outcome::Loop(length) => Err(Refusal { number: 13, place: length }),
            Outcome::Refused(refusal) => Err(refusal),
        }
    }

    /// The figures of the first line with this name, as they stand there, with one space between them.
    pub fn figures(&self, name: &str) -> Option<&'a str> {
        figures(self.text, name).next()
    }

    /// The number and the place of the refusal, as they stand in its line.
    pub fn refusal(&self) -> Option<(&'a str, &'a str)> {
        self.figures("refused")?.split_once(" at ")
    }

    /// The report, or why there is none, as lists of numbers.
    pub fn report(&self) -> Result<Report, Failure> {
        match self.outcome {
            Outcome::Report(_) => Ok(Report {
                episodes: self.number("episodes"),
                links: self.number("links"),
                width: self.number("width"),
                apart: self.figures("apart").map(numbers).expect("a report's text has each line"),
                threads: figures(self.text, "thread").map(numbers).collect(),
            }),
            Outcome::Loop(_) => Err(Failure::Loop(self.figures("loop").map(numbers).expect("a loop's text has its line"))),
            Outcome::Refused(refusal) => Err(refusal.into()),
        }
    }

    /// The one number of the line with this name.
    fn number(&self, name: &str) -> usize {
        self.figures(name).and_then(|figure| figure.parse().ok()).expect("a report's text has each line")
    }
}

/// The figures of each line with this name, without the space before the first.
fn figures<'a>(text: &'a str, name: &str) -> impl Iterator<Item = &'a str> {
    text.lines().filter_map(move |line| {
        let rest = line.strip_prefix(name)?;
        if rest.is_empty() { Some(rest) } else { rest.strip_prefix(' ') }
    })
}

/// The numbers of figures with one space between them.
fn numbers(figures: &str) -> Vec<u32> {
    figures.split_ascii_whitespace().map(|figure| figure.parse().expect("a figure is a number")).collect()
}

#[cfg(test)]
mod tests {
    use super::*;
    use crate::random::Random;
    use zohapy::{printed, words_from_bytes};

    #[test]
    fn the_text_and_its_figures() {
        let whole = [5, 0, 0, 0x10, 0, 0, 0, 0x20, 1, 0, 0, 0x30, 2, 0, 0, 0x20, 3, 0, 0, 0x30, 2, 0, 0, 0xF0];
        let mut buffers = Buffers::new();
        let answer = buffers.answer(&whole);
        assert_eq!(answer.text(), "episodes 5\nlinks 2\nwidth 3\napart 1 3 4\nthread 0 1\nthread 2 3\nthread 4\n");
        let figures =
            ["episodes", "links", "width", "apart", "thread", "loop", "refused", "epi"].map(|name| answer.figures(name));
        assert_eq!(figures, [Some("5"), Some("2"), Some("3"), Some("1 3 4"), Some("0 1"), None, None, None]);
        assert_eq!((answer.version(), answer.width(), answer.refusal()), (Some(0), Ok(3), None));
        // No episode: the line `apart` has no figure.
        let none = [0, 0, 0, 0x11, 0, 0, 0, 0xF0];
        let answer = buffers.answer(&none);
        assert_eq!((answer.figures("apart"), answer.version(), answer.width()), (Some(""), Some(1), Ok(0)));
        let answer = buffers.answer(&whole[..7]);
        assert_eq!((answer.text(), answer.refusal()), ("refused 15 at 7\n", Some(("15", "7"))));
        assert_eq!((answer.version(), answer.width()), (None, Err(Refusal { number: 15, place: 7 })));
    }

    #[test]
    fn answers_are_those_of_the_library_on_buffers_that_were_lent_before() {
        let (mut random, mut buffers) = (Random::new(), Buffers::new());
        for _ in 0..1000 {
            let log = random.log();
            let answer = buffers.answer(&log);
            assert_eq!(answer.text(), printed(&log));
            let report = words_from_bytes(&log).map_err(Failure::from).and_then(|words| Report::of(&words));
            assert_eq!(answer.report(), report);
            assert_eq!(answer.width(), report.map(|report| report.width).map_err(|failure| failure.refusal()));
        }
    }
}
