//! A report as lists of episodes, and a text of its own.

use std::fmt;

use crate::{
    Outcome, Refusal, TEXT_BYTES, WORK_WORDS, kind, link_count, marks, number, read, report, report_words,
    report_words_with_voices, text, thread,
};

/// The report on a log. It is displayed as the lines that the program prints.
#[derive(Clone, Debug, PartialEq, Eq)]
pub struct Report {
    /// How many episodes the log has.
    pub episodes: usize,
    /// How many different links that count the log has: its [`link_count`].
    pub links: usize,
    /// The fewest sleepers: how many threads there are, and how many voices the members of the apart set have together.
    pub width: usize,
    /// The furthest of the heaviest apart sets, rising. Each member has a voice at least.
    pub apart: Vec<u32>,
    /// The threads of a smallest cover. Each holds one member of the apart set. They stand in the members' order: first all that
    /// hold member 0, as many as it has voices, then all that hold member 1, and so on.
    pub threads: Vec<Vec<u32>>,
}

/// Why a log has no report. It is displayed as the lines that the program prints.
#[derive(Clone, Debug, PartialEq, Eq)]
pub enum Failure {
    /// Refusal 13: a loop of the log's links that count, its smallest episode first.
    Loop(Vec<u32>),
    /// Any other refusal.
    Refused(Refusal),
}

impl Report {
    /// The report on a log. The buffers have the words that the log needs, so refusals 11 and 12 do not occur.
    pub fn of(log: &[u32]) -> Result<Report, Failure> {
        let episodes = read(log)?.episodes;
        let links = link_count(log)?;
        let need = if marks(log)?.is_empty() { report_words(episodes) } else { report_words_with_voices(episodes) };
        let mut out = vec![0; need];
        match report(log, &mut out, &mut vec![0; WORK_WORDS]) {
            Outcome::Report(count) => {
                let words = &out[..count];
                let width = number(words[0]) as usize;
                let apart = words.iter().filter(|word| kind(**word) == 5).map(|word| number(*word)).collect();
                let threads = (0..width).map(|i| thread(words, i).map(numbers)).collect::<Result<_, _>>()?;
                Ok(Report { episodes, links, width, apart, threads })
            }
            Outcome::Loop(length) => Err(Failure::Loop(numbers(&out[1..=length]))),
            Outcome::Refused(refusal) => Err(Failure::Refused(refusal)),
        }
    }
}

impl Failure {
    /// The refusal's number and place.
    pub fn refusal(&self) -> Refusal {
        match self {
            Failure::Loop(episodes) => Refusal { number: 13, place: episodes.len() },
            Failure::Refused(refusal) => *refusal,
        }
    }
}

impl From<Refusal> for Failure {
    fn from(refusal: Refusal) -> Failure {
        Failure::Refused(refusal)
    }
}

impl fmt::Display for Report {
    fn fmt(&self, f: &mut fmt::Formatter<'_>) -> fmt::Result {
        write!(f, "episodes {}\nlinks {}\nwidth {}\n", self.episodes, self.links, self.width)?;
        line(f, "apart", &self.apart)?;
        self.threads.iter().try_for_each(|steps| line(f, "thread", steps))
    }
}

impl fmt::Display for Failure {
    fn fmt(&self, f: &mut fmt::Formatter<'_>) -> fmt::Result {
        writeln!(f, "{}", self.refusal())?;
        match self {
            Failure::Loop(episodes) => line(f, "loop", episodes),
            Failure::Refused(_) => Ok(()),
        }
    }
}

impl std::error::Error for Failure {}

/// The printed text of a log, from its bytes. The buffers have what every log needs, so refusals 11 and 12 do not occur.
///
/// ```
/// assert_eq!(zohapy::printed(&[0x01, 0, 0, 0x10, 0, 0, 0, 0xF0]), "episodes 1\nlinks 0\nwidth 1\napart 0\nthread 0\n");
/// assert_eq!(zohapy::printed(&[]), "refused 1 at 0\n");
/// ```
pub fn printed(log: &[u8]) -> String {
    let mut bytes = vec![0; TEXT_BYTES];
    let (mut out, mut work) = (vec![0; report_words(200)], vec![0; WORK_WORDS]);
    let printed = text(log, &mut bytes, &mut out, &mut work).expect("the text buffer is long enough");
    bytes.truncate(printed.bytes);
    String::from_utf8(bytes).expect("a text has letters, figures, spaces and newlines")
}

/// The numbers of words.
fn numbers(words: &[u32]) -> Vec<u32> {
    words.iter().map(|word| number(*word)).collect()
}

/// A line: its name, and a space before each figure.
fn line(f: &mut fmt::Formatter<'_>, name: &str, figures: &[u32]) -> fmt::Result {
    write!(f, "{name}")?;
    figures.iter().try_for_each(|figure| write!(f, " {figure}"))?;
    writeln!(f)
}
