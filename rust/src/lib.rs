//! The sleeper report for Rust programs: the seven services of the proved library, on lent buffers.
//!
//! A log is a list of 32-bit words; a word's top 4 bits are its kind and its low 28 bits its number. The number of the head holds
//! the log's version and its count of episodes: [`head_version`] and [`head_episodes`]. That of a to word holds an episode and a
//! pause: [`links`] gives both for each link of a log. In version 0 every link counts. In version 1 a link counts whose least
//! pause is at most [`LONGEST_PAUSE`]; reports, loops, link counts and trimmed copies are of the links that count.
//!
//! Voices words may stand between the head and the first from word. The number of one holds an episode and its voices, 0, 1 or 2:
//! 2 for a duet, 0 for a door. [`marks`] gives both for each voices word of a log. An episode without one has 1. Where an episode
//! has c voices, at least c threads of a cover pass it.
//!
//! Each call ends, on any log and any buffers, with an answer or one numbered refusal, and what it leaves in every word of the
//! buffers is fixed:
//!
//! - after a refusal other than 13 no output word and no work word has changed;
//! - otherwise the output begins with the report, the loop or the copy and is unchanged behind it, and the first [`WORK_WORDS`]
//!   work words are zero, the others unchanged;
//! - a text buffer begins with the text, whatever the outcome, and is unchanged behind it; if it is too short no byte has changed.
//!
//! [`Report::of`] lends buffers of its own and gives the report as lists of episodes. [`words_from_bytes`] takes a log's bytes.
//! [`text`] takes a log's bytes too and gives the printed text, with [`printed`] as the owned form.
//!
//! ```
//! use zohapy::Report;
//!
//! let log = [0x1000_0005, 0x2000_0000, 0x3000_0001, 0x2000_0002, 0x3000_0003, 0xF000_0002]; // 5 episodes, links 0-1 and 2-3
//! let report = Report::of(&log)?;
//! assert_eq!(report.width, 3);
//! assert_eq!(report.apart, [1, 3, 4]);
//! assert_eq!(report.threads, [vec![0, 1], vec![2, 3], vec![4]]);
//! # Ok::<(), zohapy::Failure>(())
//! ```

mod owned;

pub use owned::{Failure, Report, printed};

/// The most bytes that a log has: those of 120 voices words and 4,096 groups of one to word each, with head and end.
pub const LOG_BYTES: usize = 33_256;

/// The version of the library.
pub const VERSION: &str = env!("CARGO_PKG_VERSION");

/// The longest pause, in minutes, with which a link counts in version 1.
pub const LONGEST_PAUSE: u32 = 360;

/// The most episodes of a log with voices words.
pub const MOST_WITH_VOICES: usize = 120;

/// The most voices of an episode.
pub const MOST_VOICES: u32 = 2;

/// The work words that a report, a copy or a text needs.
pub const WORK_WORDS: usize = 16_384;

/// The bytes that the text buffer of [`text`] needs. Every text fits.
pub const TEXT_BYTES: usize = 42_640;

/// The output words that a report on `episodes` episodes needs where the log has no voices words. That of 200 episodes, 10,502, is
/// enough for every log.
pub const fn report_words(episodes: usize) -> usize {
    2 + 2 * episodes + (episodes + 1) * (episodes + 1) / 4
}

/// The output words that a report on `episodes` episodes needs where the log has a voices word, whatever that says.
pub const fn report_words_with_voices(episodes: usize) -> usize {
    2 + 3 * episodes + 2 * ((episodes + 1) * (episodes + 1) / 4)
}

/// The output words that a fair or a trimmed copy needs of a log with `to_words` to words and no voices words. To words are as
/// [`read`] counts them, repeats too.
pub const fn copy_words(to_words: usize) -> usize {
    copy_words_with_voices(to_words, 0)
}

/// The output words that a fair or a trimmed copy needs of a log with `to_words` to words and `voices_words` voices words. To words
/// are as [`read`] counts them, repeats too; voices words are those of which [`marks`] gives one each.
pub const fn copy_words_with_voices(to_words: usize, voices_words: usize) -> usize {
    2 + 2 * to_words + voices_words
}

/// The kind of a word: its top 4 bits.
pub const fn kind(word: u32) -> u32 {
    word >> 28
}

/// The number of a word: its low 28 bits. That of a head holds two figures, its [`head_version`] and its [`head_episodes`]; that of
/// a to word does too, its [`episode`] and its [`pause`], and so does that of a voices word, its [`episode`] and its [`voices`].
pub const fn number(word: u32) -> u32 {
    word & 0x0FFF_FFFF
}

/// The version of a head: its bits 24 to 27.
pub const fn head_version(word: u32) -> u32 {
    number(word) >> 24
}

/// How many episodes a head gives: its bits 0 to 23.
pub const fn head_episodes(word: u32) -> u32 {
    word & 0xFF_FFFF
}

/// The head of a version and a count of episodes; none where the version is not below 16 or the count not below 16,777,216.
///
/// ```
/// use zohapy::{head_episodes, head_version, head_word};
///
/// const WORD: u32 = head_word(1, 5).unwrap();
/// assert_eq!(WORD, 0x1100_0005);
/// assert_eq!((head_version(WORD), head_episodes(WORD)), (1, 5));
/// assert_eq!(head_word(16, 5), None);
/// ```
pub const fn head_word(version: u32, episodes: u32) -> Option<u32> {
    if version < 1 << 4 && episodes < 1 << 24 { Some(0x1000_0000 | version << 24 | episodes) } else { None }
}

/// Whether a link counts in a log of this version, by its least pause over all to words that give it: in version 0 each does, in
/// version 1 one with at most [`LONGEST_PAUSE`]. There is no other version.
///
/// ```
/// use zohapy::counts;
///
/// assert!(counts(1, 360) && !counts(1, 361));
/// assert!(counts(0, 361));
/// ```
pub const fn counts(version: u32, least_pause: u32) -> bool {
    version == 0 || version == 1 && least_pause <= LONGEST_PAUSE
}

/// The episode of a to word or of a voices word: its bits 0 to 15.
pub const fn episode(word: u32) -> u32 {
    word & 0xFFFF
}

/// The pause of a to word, in minutes: its bits 16 to 27.
pub const fn pause(word: u32) -> u32 {
    number(word) >> 16
}

/// The to word of an episode and a pause in minutes; none where the episode is not below 65,536 or the pause not below 4,096.
///
/// ```
/// use zohapy::{episode, pause, to_word};
///
/// const WORD: u32 = to_word(7, 45).unwrap();
/// assert_eq!(WORD, 0x302D_0007);
/// assert_eq!((episode(WORD), pause(WORD)), (7, 45));
/// assert_eq!(to_word(7, 4096), None);
/// ```
pub const fn to_word(episode: u32, pause: u32) -> Option<u32> {
    if episode < 1 << 16 && pause < 1 << 12 { Some(0x3000_0000 | pause << 16 | episode) } else { None }
}

/// The voices of a voices word: its bits 16 to 27.
pub const fn voices(word: u32) -> u32 {
    number(word) >> 16
}

/// The voices word of an episode and its voices; none where the episode is not below 65,536 or the voices not below 4,096. In a log
/// that passes the voices are at most [`MOST_VOICES`].
///
/// ```
/// use zohapy::{episode, voices, voices_word};
///
/// const WORD: u32 = voices_word(7, 2).unwrap();
/// assert_eq!(WORD, 0x9002_0007);
/// assert_eq!((episode(WORD), voices(WORD)), (7, 2));
/// assert_eq!(voices_word(7, 4096), None);
/// ```
pub const fn voices_word(episode: u32, voices: u32) -> Option<u32> {
    if episode < 1 << 16 && voices < 1 << 12 { Some(0x9000_0000 | voices << 16 | episode) } else { None }
}

/// A mark as a voices word gives it.
#[derive(Clone, Copy, Debug, PartialEq, Eq, PartialOrd, Ord, Hash)]
pub struct Mark {
    /// The marked episode.
    pub episode: u32,
    /// How many voices it has.
    pub voices: u32,
}

/// A link as a to word gives it.
#[derive(Clone, Copy, Debug, PartialEq, Eq, PartialOrd, Ord, Hash)]
pub struct Link {
    /// The earlier episode, that of the from word before.
    pub from: u32,
    /// The later episode.
    pub to: u32,
    /// The pause between the two, in minutes.
    pub pause: u32,
}

/// A refusal: its number and its place.
#[derive(Clone, Copy, Debug, PartialEq, Eq)]
pub struct Refusal {
    /// The question that was answered no. 1 to 10 and 18 to 21 are of the log's words; 20, 7, 19 and 21 are asked of each voices
    /// word between head and first from word: whether there are at most [`MOST_WITH_VOICES`] episodes, whether its episode is below
    /// n, whether its voices are at most [`MOST_VOICES`], and whether no voices word before it is of its episode.
    pub number: u32,
    /// The place, in words from 0. For 11 and 12 it is the words needed, or [`TEXT_BYTES`] where a text buffer is too short, for 13
    /// the loop's length, for 14 [`LOG_BYTES`], and for 15 the byte count.
    pub place: usize,
}

impl std::fmt::Display for Refusal {
    fn fmt(&self, f: &mut std::fmt::Formatter<'_>) -> std::fmt::Result {
        write!(f, "refused {} at {}", self.number, self.place)
    }
}

impl std::error::Error for Refusal {}

/// What a log that passes has: its episodes, and its to words, each of which gives a link.
#[derive(Clone, Copy, Debug, PartialEq, Eq)]
pub struct Reading {
    /// n; the episodes are 0 to n - 1.
    pub episodes: usize,
    /// The count of to words, those of repeats and of links that do not count too; [`link_count`] counts different links that
    /// count.
    pub links: usize,
}

/// The outcome of a report call, and of a text call on the bytes of a log.
#[derive(Clone, Copy, Debug, PartialEq, Eq)]
pub enum Outcome {
    /// The output begins with a report of this many words.
    Report(usize),
    /// Refusal 13: the output begins with a loop of this many episodes, one word more.
    Loop(usize),
    /// A refusal 1 to 12 or 18 to 21; of a text call 14 or 15 too.
    Refused(Refusal),
}

/// What a text call gives: its outcome, and the length of the text.
#[derive(Clone, Copy, Debug, PartialEq, Eq)]
pub struct Printed {
    /// The outcome of a report call on the words of the log, or refusal 14 or 15 of its bytes.
    pub outcome: Outcome,
    /// How many bytes the text has, with which the text buffer begins.
    pub bytes: usize,
}

/// The outcome of a trimmed copy call.
#[derive(Clone, Copy, Debug, PartialEq, Eq)]
pub enum TrimOutcome {
    /// The output begins with a trimmed copy of this many words.
    Trimmed(usize),
    /// Refusal 13: the output begins with a loop of this many episodes, one word more.
    Loop(usize),
    /// A refusal 1 to 12 or 18 to 21.
    Refused(Refusal),
}

mod library {
    #[repr(C)]
    pub struct ReadAnswer {
        pub number: u32,
        pub place: usize,
        pub episodes: usize,
        pub links: usize,
    }

    #[repr(C)]
    pub struct Answer {
        pub number: u32,
        pub value: usize,
    }

    #[repr(C)]
    pub struct ThreadAnswer {
        pub number: u32,
        pub start: usize,
        pub length: usize,
    }

    #[repr(C)]
    pub struct TextAnswer {
        pub number: u32,
        pub value: usize,
        pub bytes: usize,
    }

    /// A service that writes to a lent output: the log, the output and the work words, each with its length.
    pub type Lending = unsafe extern "C" fn(*const u32, usize, *mut u32, usize, *mut u32, usize) -> Answer;

    // SAFETY: these are the functions of include/zohapy.h, with the same arguments and the same structures.
    unsafe extern "C" {
        pub fn zohapy_read(log: *const u32, log_words: usize) -> ReadAnswer;
        pub fn zohapy_links(log: *const u32, log_words: usize) -> Answer;
        pub fn zohapy_report(
            log: *const u32,
            log_words: usize,
            out: *mut u32,
            out_words: usize,
            work: *mut u32,
            work_words: usize,
        ) -> Answer;
        pub fn zohapy_fair_copy(
            log: *const u32,
            log_words: usize,
            out: *mut u32,
            out_words: usize,
            work: *mut u32,
            work_words: usize,
        ) -> Answer;
        pub fn zohapy_trimmed_copy(
            log: *const u32,
            log_words: usize,
            out: *mut u32,
            out_words: usize,
            work: *mut u32,
            work_words: usize,
        ) -> Answer;
        pub fn zohapy_thread(report: *const u32, report_words: usize, i: usize) -> ThreadAnswer;
        pub fn zohapy_text(
            log: *const u8,
            log_bytes: usize,
            text: *mut u8,
            text_bytes: usize,
            out: *mut u32,
            out_words: usize,
            work: *mut u32,
            work_words: usize,
        ) -> TextAnswer;
    }
}

/// Reads a log: questions 1 to 10, after 2 question 18: whether the version is 0 or 1, and 19 to 21 of its voices words.
pub fn read(log: &[u32]) -> Result<Reading, Refusal> {
    // SAFETY: the pointer and the length are those of a slice, and the call reads only its words.
    let answer = unsafe { library::zohapy_read(log.as_ptr(), log.len()) };
    match answer.number {
        0 => Ok(Reading { episodes: answer.episodes, links: answer.links }),
        number => Err(Refusal { number, place: answer.place }),
    }
}

/// The link count of a log, as it is printed: how many different links that count it has, a link being an ordered pair of
/// episodes. A link that is given again is counted once; pauses matter only for which links count, voices not at all. It asks the
/// questions of [`read`], so a log with a loop has a link count too.
///
/// ```
/// let log = [0x1000_0002, 0x2000_0000, 0x3000_0001, 0x3000_0001, 0xF000_0002]; // 0-1 twice
/// assert_eq!(zohapy::link_count(&log)?, 1);
/// assert_eq!(zohapy::read(&log)?.links, 2); // its to words
/// let log = [0x1100_0002, 0x2000_0000, 0x3169_0001, 0xF000_0001]; // version 1, 0-1 after 361 minutes
/// assert_eq!(zohapy::link_count(&log)?, 0);
/// assert_eq!(zohapy::read(&log)?.links, 1);
/// # Ok::<(), zohapy::Refusal>(())
/// ```
pub fn link_count(log: &[u32]) -> Result<usize, Refusal> {
    // SAFETY: the pointer and the length are those of a slice, and the call reads only its words.
    let answer = unsafe { library::zohapy_links(log.as_ptr(), log.len()) };
    match answer.number {
        0 => Ok(answer.value),
        number => Err(Refusal { number, place: answer.value }),
    }
}

/// The links of a log in the order in which it gives them, one for each to word, repeats and links that do not count too; or its
/// refusal by [`read`]. By the least of its pauses [`counts`] says whether a link counts.
///
/// ```
/// use zohapy::{Link, links};
///
/// let log = [0x1000_0003, 0x2000_0000, 0x3000_0001, 0x302D_0002, 0xF000_0002]; // 0-1, and 0-2 after 45 minutes
/// assert_eq!(links(&log)?, [Link { from: 0, to: 1, pause: 0 }, Link { from: 0, to: 2, pause: 45 }]);
/// # Ok::<(), zohapy::Refusal>(())
/// ```
pub fn links(log: &[u32]) -> Result<Vec<Link>, Refusal> {
    let mut links = Vec::with_capacity(read(log)?.links);
    let mut from = 0;
    // The log has passed, so that these are voices words, then from words and to words, a from word first.
    for &word in &log[1..log.len() - 1] {
        match kind(word) {
            2 => from = number(word),
            3 => links.push(Link { from, to: episode(word), pause: pause(word) }),
            _ => {}
        }
    }
    Ok(links)
}

/// The marks of a log in the order in which it gives them, one for each voices word, those that say 1 too; or its refusal by
/// [`read`].
///
/// ```
/// use zohapy::{Mark, marks};
///
/// let log = [0x1000_0005, 0x9002_0003, 0x9000_0001, 0xF000_0000]; // 3 is a duet, 1 a door
/// assert_eq!(marks(&log)?, [Mark { episode: 3, voices: 2 }, Mark { episode: 1, voices: 0 }]);
/// # Ok::<(), zohapy::Refusal>(())
/// ```
pub fn marks(log: &[u32]) -> Result<Vec<Mark>, Refusal> {
    read(log)?;
    // The log has passed, so that its voices words stand behind the head.
    let words = log[1..].iter().take_while(|word| kind(**word) == 9);
    Ok(words.map(|word| Mark { episode: episode(*word), voices: voices(*word) }).collect())
}

/// A call of one of the library's services that write to a lent output.
fn call(service: library::Lending, log: &[u32], out: &mut [u32], work: &mut [u32]) -> library::Answer {
    // SAFETY: the pointers and the lengths are those of three slices, no two of which share a word; the call stays within them.
    unsafe { service(log.as_ptr(), log.len(), out.as_mut_ptr(), out.len(), work.as_mut_ptr(), work.len()) }
}

/// The report on a log, or a loop of it, by the voices and the links that count; pauses matter only for which do. For a report lend
/// [`WORK_WORDS`] work words and [`report_words`] output words, or [`report_words_with_voices`] where the log has a voices word.
pub fn report(log: &[u32], out: &mut [u32], work: &mut [u32]) -> Outcome {
    let answer = call(library::zohapy_report, log, out, work);
    outcome(answer.number, answer.value)
}

/// The outcome that has this number and this value.
fn outcome(number: u32, value: usize) -> Outcome {
    match number {
        0 => Outcome::Report(value),
        13 => Outcome::Loop(value),
        number => Outcome::Refused(Refusal { number, place: value }),
    }
}

/// The fair copy of a log: its version, a voices word for each episode with other voices than 1, rising by episode, and each link
/// once, whether it counts or not, with its least pause, its to words rising by episode. The answer is its count of words. Lend
/// [`copy_words_with_voices`] output words and [`WORK_WORDS`] work words.
pub fn fair_copy(log: &[u32], out: &mut [u32], work: &mut [u32]) -> Result<usize, Refusal> {
    let answer = call(library::zohapy_fair_copy, log, out, work);
    match answer.number {
        0 => Ok(answer.value),
        number => Err(Refusal { number, place: answer.value }),
    }
}

/// The trimmed copy of a log, or a loop of it: the voices words of the fair copy, and of the links that count only those A-B for
/// which no other path leads from A to B, in version 0 and with pause 0. Lend [`copy_words_with_voices`] output words and
/// [`WORK_WORDS`] work words.
pub fn trimmed_copy(log: &[u32], out: &mut [u32], work: &mut [u32]) -> TrimOutcome {
    let answer = call(library::zohapy_trimmed_copy, log, out, work);
    match answer.number {
        0 => TrimOutcome::Trimmed(answer.value),
        13 => TrimOutcome::Loop(answer.value),
        number => TrimOutcome::Refused(Refusal { number, place: answer.value }),
    }
}

/// The steps of thread `i` of a report, as that stretch of the report itself.
pub fn thread(report: &[u32], i: usize) -> Result<&[u32], Refusal> {
    // SAFETY: the pointer and the length are those of a slice, and the call reads only its words.
    let answer = unsafe { library::zohapy_thread(report.as_ptr(), report.len(), i) };
    match answer.number {
        0 => Ok(&report[answer.start..answer.start + answer.length]),
        number => Err(Refusal { number, place: 0 }),
    }
}

/// The printed text of a log, from its bytes, four to a word, lowest byte first; [`Report`] and [`Failure`] are displayed as the same
/// text. The text buffer begins with the text and is unchanged behind it. A refused log has a text too, and so have refusals 11 and
/// 12 of output and work words. More than [`LOG_BYTES`] bytes are refused by 14, then any count that is not a multiple of four by 15;
/// both change no word. Otherwise the outcome is that of [`report`] on the words with the same output and work words, which are left
/// as that leaves them.
///
/// Lend [`TEXT_BYTES`] bytes for the text, and output and work words as for a report. The only error is that the text buffer has
/// fewer: then it is refusal 11 with [`TEXT_BYTES`] as its place, whatever the log, and no byte and no word has changed.
///
/// ```
/// use zohapy::{Outcome, Printed, TEXT_BYTES, WORK_WORDS, report_words};
///
/// let log = [0x1000_0005, 0x2000_0000, 0x3000_0001, 0x2000_0002, 0x3000_0003, 0xF000_0002]; // 5 episodes, links 0-1 and 2-3
/// let log = zohapy::bytes_from_words(&log);
/// let (mut text, mut out, mut work) = (vec![0; TEXT_BYTES], vec![0; report_words(5)], vec![0; WORK_WORDS]);
/// let printed = zohapy::text(&log, &mut text, &mut out, &mut work)?;
/// assert_eq!(printed, Printed { outcome: Outcome::Report(13), bytes: 70 });
/// assert_eq!(&text[..printed.bytes], b"episodes 5\nlinks 2\nwidth 3\napart 1 3 4\nthread 0 1\nthread 2 3\nthread 4\n");
/// # Ok::<(), zohapy::Refusal>(())
/// ```
pub fn text(log: &[u8], text: &mut [u8], out: &mut [u32], work: &mut [u32]) -> Result<Printed, Refusal> {
    // SAFETY: the pointers and the lengths are those of four slices, no two of which share a byte; the call stays within them.
    let answer = unsafe {
        library::zohapy_text(
            log.as_ptr(),
            log.len(),
            text.as_mut_ptr(),
            text.len(),
            out.as_mut_ptr(),
            out.len(),
            work.as_mut_ptr(),
            work.len(),
        )
    };
    match answer.bytes {
        0 => Err(Refusal { number: answer.number, place: answer.value }),
        bytes => Ok(Printed { outcome: outcome(answer.number, answer.value), bytes }),
    }
}

/// The words of a log's bytes, four to a word, lowest byte first. More than [`LOG_BYTES`] bytes are refused by 14, then any count
/// that is not a multiple of four by 15.
pub fn words_from_bytes(bytes: &[u8]) -> Result<Vec<u32>, Refusal> {
    if bytes.len() > LOG_BYTES {
        return Err(Refusal { number: 14, place: LOG_BYTES });
    }
    let (words, rest) = bytes.as_chunks::<4>();
    if !rest.is_empty() {
        return Err(Refusal { number: 15, place: bytes.len() });
    }
    Ok(words.iter().map(|word| u32::from_le_bytes(*word)).collect())
}

/// The bytes of words, four to a word, lowest byte first.
pub fn bytes_from_words(words: &[u32]) -> Vec<u8> {
    words.iter().flat_map(|word| word.to_le_bytes()).collect()
}
