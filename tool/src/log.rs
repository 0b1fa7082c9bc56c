//! A log as its version, episodes, marks and links, and its text form: a line `version V` unless the version is 0, a line
//! `episodes N`, a line `voices E C` for each voices word, E being its episode and C its voices, then a line `A-B` or `A-B M` for
//! each link, M being its pause in minutes. What is given again is kept again.

use std::collections::BTreeMap;
use std::fmt;

use zohapy::{Link, Mark, Refusal, head_episodes, head_version, head_word, links, marks, to_word, voices_word};

/// The numbers that a word has room for are below this.
const NUMBERS: u32 = 1 << 28;

/// A log: its version, how many episodes it has, and in order its marks, each from a voices word, and its links, repeats too.
#[derive(Clone, Debug, PartialEq, Eq)]
pub struct Log {
    pub version: u32,
    pub episodes: u32,
    pub marks: Vec<Mark>,
    pub links: Vec<Link>,
}

/// A text that is no text form: the line, counted from 1, and what is expected there.
#[derive(Clone, Debug, PartialEq, Eq)]
pub struct TextError {
    pub line: usize,
    pub expected: Expected,
}

/// What a line of the text form holds.
#[derive(Clone, Copy, Debug, PartialEq, Eq)]
pub enum Expected {
    Version,
    Episodes,
    Voices,
    Link,
    NoMoreLinks,
}

impl fmt::Display for TextError {
    fn fmt(&self, f: &mut fmt::Formatter<'_>) -> fmt::Result {
        write!(f, "line {}: expected ", self.line)?;
        match self.expected {
            Expected::Version => write!(f, "version V, with a number below 16, at most once and before the links"),
            Expected::Episodes => write!(f, "episodes N, with a number below 16777216"),
            Expected::Voices => {
                write!(f, "voices E C, with E below 65536 and its C voices below 4096, before the links")
            }
            Expected::Link => {
                write!(f, "a link A-B or A-B M, with A below {NUMBERS}, B below 65536 and its pause of M minutes below 4096")
            }
            Expected::NoMoreLinks => write!(f, "no more links, of which there can be {}, repeats too", NUMBERS - 1),
        }
    }
}

impl Log {
    /// The log of a text form. The version and the voices may stand before or behind the episodes, but not behind a link; without
    /// a version it is 0. Blank lines and lines that start with `#` are passed over. Whether the library would pass the log is not
    /// asked.
    pub fn from_text(text: &str) -> Result<Log, TextError> {
        let (mut version, mut episodes, mut marks, mut links) = (None, None, Vec::new(), Vec::new());
        let mut last = 0;
        for (line, content) in text.lines().map(str::trim).enumerate() {
            last = line;
            if content.is_empty() || content.starts_with('#') {
                continue;
            }
            let error = |expected| TextError { line: line + 1, expected };
            if let Some(digits) = behind(content, "version") {
                let free = version.is_none() && links.is_empty();
                let given = number_of(digits).filter(|given| free && head_word(*given, 0).is_some());
                version = Some(given.ok_or(error(Expected::Version))?);
            } else if let Some(figures) = behind(content, "voices") {
                let mark = mark_of(figures).filter(|_| links.is_empty());
                marks.push(mark.ok_or(error(Expected::Voices))?);
            } else if episodes.is_none() {
                episodes = Some(episodes_of(content).ok_or(error(Expected::Episodes))?);
            } else {
                links.push(link_of(content).ok_or(error(Expected::Link))?);
                if links.len() >= NUMBERS as usize {
                    return Err(error(Expected::NoMoreLinks));
                }
            }
        }
        let episodes = episodes.ok_or(TextError { line: last + 1, expected: Expected::Episodes })?;
        Ok(Log { version: version.unwrap_or(0), episodes, marks, links })
    }

    /// The log of words that pass the reading.
    pub fn from_words(words: &[u32]) -> Result<Log, Refusal> {
        let (marks, links) = (marks(words)?, links(words)?);
        Ok(Log { version: head_version(words[0]), episodes: head_episodes(words[0]), marks, links })
    }

    /// The voices of an episode: those of its mark, 1 where it has none.
    pub fn voices(&self, episode: u32) -> u32 {
        self.marks.iter().find(|mark| mark.episode == episode).map_or(1, |mark| mark.voices)
    }

    /// The different links with their least pauses, rising.
    pub fn least_pauses(&self) -> BTreeMap<(u32, u32), u32> {
        let mut least = BTreeMap::new();
        for &Link { from, to, pause } in &self.links {
            let least = least.entry((from, to)).or_insert(pause);
            *least = pause.min(*least);
        }
        least
    }

    /// The words of the log. Links that follow each other and leave the same episode share a from word.
    pub fn words(&self) -> Vec<u32> {
        let mut words = vec![head_word(self.version, self.episodes).expect("a head has room for the figures")];
        let marked = |mark: &Mark| voices_word(mark.episode, mark.voices).expect("a voices word has room for the mark");
        words.extend(self.marks.iter().map(marked));
        for group in self.links.chunk_by(|a, b| a.from == b.from) {
            words.push(0x2000_0000 | group[0].from);
            words.extend(group.iter().map(|link| to_word(link.to, link.pause).expect("a to word has room for the link")));
        }
        words.push(0xF000_0000 | self.links.len() as u32);
        words
    }
}

/// The text form of the log. A version of 0 and a pause of 0 are left out.
impl fmt::Display for Log {
    fn fmt(&self, f: &mut fmt::Formatter<'_>) -> fmt::Result {
        if self.version != 0 {
            writeln!(f, "version {}", self.version)?;
        }
        writeln!(f, "episodes {}", self.episodes)?;
        self.marks.iter().try_for_each(|Mark { episode, voices }| writeln!(f, "voices {episode} {voices}"))?;
        self.links.iter().try_for_each(|Link { from, to, pause }| match pause {
            0 => writeln!(f, "{from}-{to}"),
            _ => writeln!(f, "{from}-{to} {pause}"),
        })
    }
}

/// What stands behind the name with which a line begins.
fn behind<'a>(line: &'a str, name: &str) -> Option<&'a str> {
    line.strip_prefix(name).filter(|rest| rest.is_empty() || rest.starts_with(char::is_whitespace))
}

/// The number of a line `episodes N`.
fn episodes_of(line: &str) -> Option<u32> {
    behind(line, "episodes").and_then(number_of).filter(|episodes| head_word(0, *episodes).is_some())
}

/// The mark of the figures `E C` of a line `voices E C`.
fn mark_of(figures: &str) -> Option<Mark> {
    let (episode, voices) = figures.trim().split_once(char::is_whitespace)?;
    let mark = Mark { episode: number_of(episode)?, voices: number_of(voices)? };
    voices_word(mark.episode, mark.voices).map(|_| mark)
}

/// The link of a line `A-B` or `A-B M`.
fn link_of(line: &str) -> Option<Link> {
    let (from, behind) = line.split_once('-')?;
    let (to, pause) = behind.trim().split_once(char::is_whitespace).unwrap_or((behind, "0"));
    let link = Link { from: number_of(from)?, to: number_of(to)?, pause: number_of(pause)? };
    to_word(link.to, link.pause).map(|_| link)
}

/// A number in digits that a word has room for.
fn number_of(digits: &str) -> Option<u32> {
    let digits = digits.trim();
    if !digits.bytes().all(|digit| digit.is_ascii_digit()) {
        return None;
    }
    digits.parse().ok().filter(|number| *number < NUMBERS)
}

#[cfg(test)]
mod tests {
    use super::*;
    use crate::random::Random;

    const WHOLE_TEXT: &str = "episodes 5\n0-1\n2-3\n";
    const WHOLE: [u32; 6] = [0x1000_0005, 0x2000_0000, 0x3000_0001, 0x2000_0002, 0x3000_0003, 0xF000_0002];

    /// A log of four links, three of them with a pause.
    const PAUSED_TEXT: &str = "episodes 5\n0-1 45\n0-2\n0-1 4095\n3-4 1\n";
    const PAUSED: [u32; 8] =
        [0x1000_0005, 0x2000_0000, 0x302D_0001, 0x3000_0002, 0x3FFF_0001, 0x2000_0003, 0x3001_0004, 0xF000_0004];

    /// A log of version 1.
    const VERSION_1_TEXT: &str = "version 1\nepisodes 3\n0-1 361\n1-2\n";
    const VERSION_1: [u32; 6] = [0x1100_0003, 0x2000_0000, 0x3169_0001, 0x2000_0001, 0x3000_0002, 0xF000_0002];

    /// A log with a duet, a door, and an episode of which a voices word says 1, out of order.
    const MARKED_TEXT: &str = "episodes 5\nvoices 3 2\nvoices 0 1\nvoices 1 0\n0-1\n2-3\n";
    const MARKED: [u32; 9] =
        [0x1000_0005, 0x9002_0003, 0x9001_0000, 0x9000_0001, 0x2000_0000, 0x3000_0001, 0x2000_0002, 0x3000_0003, 0xF000_0002];

    fn error(text: &str) -> (usize, Expected) {
        let error = Log::from_text(text).expect_err("the text is no text form");
        (error.line, error.expected)
    }

    #[test]
    fn the_whole_example_goes_both_ways() {
        assert_eq!(Log::from_text(WHOLE_TEXT).map(|log| log.words()), Ok(WHOLE.to_vec()));
        assert_eq!(Log::from_words(&WHOLE).map(|log| log.to_string()), Ok(WHOLE_TEXT.to_string()));
    }

    #[test]
    fn pauses_go_both_ways() {
        assert_eq!(Log::from_text(PAUSED_TEXT).map(|log| log.words()), Ok(PAUSED.to_vec()));
        assert_eq!(Log::from_words(&PAUSED).map(|log| log.to_string()), Ok(PAUSED_TEXT.to_string()));
    }

    #[test]
    fn the_version_goes_both_ways() {
        assert_eq!(Log::from_text(VERSION_1_TEXT).map(|log| log.words()), Ok(VERSION_1.to_vec()));
        assert_eq!(Log::from_words(&VERSION_1).map(|log| log.to_string()), Ok(VERSION_1_TEXT.to_string()));
    }

    #[test]
    fn voices_go_both_ways() {
        assert_eq!(Log::from_text(MARKED_TEXT).map(|log| log.words()), Ok(MARKED.to_vec()));
        assert_eq!(Log::from_words(&MARKED).map(|log| log.to_string()), Ok(MARKED_TEXT.to_string()));
        let log = Log::from_words(&MARKED).expect("the log passes");
        assert_eq!((0..5).map(|episode| log.voices(episode)).collect::<Vec<_>>(), [1, 0, 1, 2, 1]);
        // With a version, and without links.
        let text = "version 1\nepisodes 2\nvoices 1 2\n";
        let words = [0x1100_0002, 0x9002_0001, 0xF000_0000];
        assert_eq!(Log::from_text(text).map(|log| log.words()), Ok(words.to_vec()));
        assert_eq!(Log::from_words(&words).map(|log| log.to_string()), Ok(text.to_string()));
    }

    #[test]
    fn the_voices_stand_before_the_links() {
        for text in [
            "voices 3 2\nvoices 0 1\nvoices 1 0\nepisodes 5\n0-1\n2-3\n",
            "voices 3 2\nepisodes 5\n# a mark\n voices \t 0  01 \n\nvoices 1 0\n0-1\n2-3",
        ] {
            assert_eq!(Log::from_text(text), Log::from_text(MARKED_TEXT), "{text:?}");
        }
        let wrong =
            ["voices", "voices 3", "voices 3 2 1", "voices 3-2", "voices -3 2", "voices 3 +2", "voices a 2", "voices 3 two"];
        let too_large = ["voices 65536 2", "voices 3 4096", "voices 4294967296 2", "voices 3 4294967296"];
        for line in wrong.into_iter().chain(too_large) {
            assert_eq!(error(&format!("episodes 5\n{line}\n")), (2, Expected::Voices), "{line:?}");
        }
        assert_eq!(error("episodes 5\n0-1\nvoices 3 2\n"), (3, Expected::Voices));
        assert_eq!(error("episodes 5\nvoices 3 2\n0-1\nvoices 1 0\n"), (4, Expected::Voices));
        // Other words are no voices.
        assert_eq!(error("episodes 5\nvoices3 2\n"), (2, Expected::Link));
        assert_eq!(error("episodes 5\nVoices 3 2\n"), (2, Expected::Link));
        assert_eq!(error("voices 3 2\n"), (1, Expected::Episodes));
    }

    #[test]
    fn the_version_may_stand_behind_the_episodes() {
        for text in ["episodes 3\nversion 1\n0-1 361\n1-2\n", "# one\n version \t 01 \n\nepisodes 3\n# links\n0-1 361\n1-2"] {
            assert_eq!(Log::from_text(text), Log::from_text(VERSION_1_TEXT), "{text:?}");
        }
        assert_eq!(Log::from_text("version 1\nepisodes 0").map(|log| log.words()), Ok(vec![0x1100_0000, 0xF000_0000]));
        assert_eq!(Log::from_text("episodes 0\nversion 1").map(|log| log.words()), Ok(vec![0x1100_0000, 0xF000_0000]));
    }

    #[test]
    fn a_version_of_0_can_be_given_and_is_not_written() {
        let log = Log::from_text("version 0\nepisodes 5\n0-1\n2-3\n").expect("a text form");
        assert_eq!(log.words(), WHOLE);
        assert_eq!(log.to_string(), WHOLE_TEXT);
    }

    #[test]
    fn the_version_is_given_once_and_before_the_links() {
        let wrong = ["version", "version 16", "version -1", "version +1", "version 1 2", "version one", "version 4294967296"];
        for line in wrong {
            assert_eq!(error(&format!("{line}\nepisodes 5\n")), (1, Expected::Version), "{line:?}");
            assert_eq!(error(&format!("episodes 5\n{line}\n")), (2, Expected::Version), "{line:?}");
        }
        assert_eq!(error("version 1\nversion 1\nepisodes 5\n"), (2, Expected::Version));
        assert_eq!(error("version 0\nepisodes 5\nversion 0\n"), (3, Expected::Version));
        assert_eq!(error("episodes 5\n0-1\nversion 1\n"), (3, Expected::Version));
        assert_eq!(error("version 1\nepisodes 5\n0-1\nversion 1\n"), (4, Expected::Version));
        // Other words are no version.
        assert_eq!(error("version1\nepisodes 5\n"), (1, Expected::Episodes));
        assert_eq!(error("episodes 5\nVersion 1\n"), (2, Expected::Link));
        assert_eq!(error("version 1\n"), (1, Expected::Episodes));
        assert_eq!(error("version 1\n0-1\n"), (2, Expected::Episodes));
    }

    #[test]
    fn a_pause_of_0_can_be_given_and_is_not_written() {
        let log = Log::from_text("episodes 5\n0-1 0\n2-3 00\n").expect("a text form");
        assert_eq!(log.words(), WHOLE);
        assert_eq!(log.to_string(), WHOLE_TEXT);
    }

    #[test]
    fn links_from_the_same_episode_share_a_from_word_where_they_follow_each_other() {
        let log = Log::from_text("episodes 4\n0-1\n0-2\n1-3\n0-3\n").expect("a text form");
        let words = [0x2000_0000, 0x3000_0001, 0x3000_0002, 0x2000_0001, 0x3000_0003, 0x2000_0000, 0x3000_0003];
        assert_eq!(log.words(), [&[0x1000_0004], &words[..], &[0xF000_0004]].concat());
    }

    #[test]
    fn spaces_blank_lines_and_comments_are_passed_over() {
        let log = Log::from_text("# a night\n\n  episodes \t 5 \r\n # of two links\n 0 - 1 \n\n2-3");
        assert_eq!(log, Log::from_text(WHOLE_TEXT));
        let log = Log::from_text("episodes 5\n0 - 1 \t 45 \n0- 2 0\n0 -1\t4095\r\n3-4  1");
        assert_eq!(log, Log::from_text(PAUSED_TEXT));
    }

    #[test]
    fn a_log_that_the_library_refuses_has_bytes_too() {
        let log = Log::from_text("version 15\nepisodes 16777215\n268435455-65535 4095\n").expect("the numbers have room");
        assert_eq!(log.words(), [0x1FFF_FFFF, 0x2FFF_FFFF, 0x3FFF_FFFF, 0xF000_0001]);
        assert_eq!(Log::from_words(&log.words()), Err(Refusal { number: 18, place: 0 }));
        // A mark is kept, though the episode is not there, is marked again or has too many voices.
        let log = Log::from_text("episodes 5\nvoices 65535 4095\nvoices 1 2\nvoices 1 2\n").expect("the numbers have room");
        assert_eq!(log.words(), [0x1000_0005, 0x9FFF_FFFF, 0x9002_0001, 0x9002_0001, 0xF000_0000]);
        assert_eq!(Log::from_words(&log.words()), Err(Refusal { number: 7, place: 1 }));
        let log = Log::from_text("episodes 16777215\n").expect("the number has room");
        assert_eq!(log.words(), [0x10FF_FFFF, 0xF000_0000]);
        assert_eq!(Log::from_words(&log.words()), Err(Refusal { number: 3, place: 0 }));
    }

    #[test]
    fn the_episodes_come_before_the_links() {
        for text in
            ["", "\n", "0-1\n", "episode 5\n", "episodes\n", "episodes5\n", "episodes -5\n", "episodes +5\n", "episodes 5 6\n"]
        {
            assert_eq!(error(text), (1, Expected::Episodes), "{text:?}");
        }
        assert_eq!(error("episodes 16777216"), (1, Expected::Episodes));
        assert_eq!(error("episodes 268435456"), (1, Expected::Episodes));
        assert_eq!(error("episodes 99999999999999999999"), (1, Expected::Episodes));
        assert_eq!(error("# only this\n\n"), (2, Expected::Episodes));
        assert_eq!(error("# first\nEpisodes 5\n"), (2, Expected::Episodes));
    }

    #[test]
    fn every_other_line_is_a_link() {
        let wrong = ["0", "0-", "-1", "0--1", "0-1-2", "a-1", "0-b", "0 1", "+0-1", "0-1 #", "episodes 5", "٣-1"];
        let wrong_pauses = ["0-1 2 3", "0-1 -5", "0-1 +5", "0-1 4.5", "0-1 45m", "0-1,45", "0-1-45", "0 1 45", "0-1 ٣"];
        let too_large = ["0-65536", "0-65536 1", "0-268435456", "268435456-0", "4294967296-0", "0-1 4096", "0-1 4294967296"];
        for link in wrong.into_iter().chain(wrong_pauses).chain(too_large) {
            assert_eq!(error(&format!("episodes 5\n# a comment\n0-1\n{link}\n")), (4, Expected::Link), "{link:?}");
        }
    }

    #[test]
    fn an_error_names_the_line_and_what_is_expected() {
        let message = |text| Log::from_text(text).expect_err("the text is no text form").to_string();
        assert_eq!(message("links 5"), "line 1: expected episodes N, with a number below 16777216");
        assert_eq!(
            message("episodes 5\nversion 16"),
            "line 2: expected version V, with a number below 16, at most once and before the links"
        );
        assert_eq!(
            message("episodes 5\n0-1\nvoices 3 2"),
            "line 3: expected voices E C, with E below 65536 and its C voices below 4096, before the links"
        );
        assert_eq!(
            message("episodes 5\n0_1"),
            "line 2: expected a link A-B or A-B M, with A below 268435456, B below 65536 and its pause of M minutes below 4096"
        );
    }

    #[test]
    fn random_logs_go_both_ways() {
        let mut random = Random::new();
        // Without a pause, with few and with all.
        for ceiling in [1, 2, 4096].into_iter().cycle().take(300) {
            let episodes = 1 + random.below(200);
            let links = (0..random.below(300)).map(|_| random.link(episodes, ceiling)).collect();
            let marks = if random.below(2) == 0 { Vec::new() } else { random.marks(episodes) };
            let log = Log { version: random.below(2), episodes, marks, links };
            assert_eq!(Log::from_text(&log.to_string()).as_ref(), Ok(&log));
            assert_eq!(Log::from_words(&log.words()).as_ref(), Ok(&log));
        }
    }

    #[test]
    fn other_groups_give_the_same_links() {
        let mut random = Random::new();
        for _ in 0..200 {
            let episodes = 1 + random.below(4);
            let links: Vec<_> = (0..random.below(20)).map(|_| random.link(episodes, 3)).collect();
            let version = random.below(2);
            let mut words = vec![0x1000_0000 | version << 24 | episodes];
            words.extend(links.iter().flat_map(|link| [0x2000_0000 | link.from, 0x3000_0000 | link.pause << 16 | link.to]));
            words.push(0xF000_0000 | links.len() as u32);
            assert_eq!(Log::from_words(&words), Ok(Log { version, episodes, marks: vec![], links }));
        }
    }
}
