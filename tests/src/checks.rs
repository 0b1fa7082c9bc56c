//! The checks by name, and what they found.

/// What is compared. Every one of them must be able to fail: the faults show it.
#[derive(Clone, Copy, Debug, PartialEq, Eq)]
pub enum Check {
    Number,
    Place,
    Values,
    LogKept,
    OutKept,
    OutBehind,
    WorkKept,
    WorkZero,
    WorkBehind,
    Outside,
    Layout,
    Width,
    EqualSizes,
    Apart,
    Voiced,
    Rising,
    Cover,
    Passed,
    Paired,
    Furthest,
    Loop,
    FairCopy,
    TrimmedCopy,
    Stretch,
    Text,
    TextKept,
    TextBehind,
    AsReport,
    OwnText,
    SameText,
    SameCopy,
    OtherCopy,
    ReadBack,
    CopyOfCopy,
    SameReport,
    OwnThreads,
    SameOutcome,
    SameTrimmed,
    OtherTrimmed,
    TrimmedOfCopies,
    TrimmedWays,
    TrimmedReport,
    TrimmedCover,
    Least,
    BothDoors,
    ReadCount,
    SameCount,
    OtherCount,
    TrimmedCount,
    VersionCopy,
    VersionWidth,
    ShortPauses,
    CountedAlone,
    VoicesOrder,
    SaidOnes,
    OtherVoices,
    Doors,
    VoiceMore,
    AllDuets,
    AsItems,
    Worked,
    Ends,
    Older,
}

use Check::*;

pub const CHECKS: [(Check, &str, &str); 63] = [
    (Number, "number", "the answer's number: 0 or that of the refusal"),
    (Place, "place", "the refusal's place"),
    (Values, "values", "n and the count of to words; the link count; the copy's count of words; how many bytes the text has"),
    (LogKept, "log kept", "the words or bytes that came in are unchanged"),
    (OutKept, "output kept", "after refusals other than 13 the output is unchanged"),
    (OutBehind, "output behind", "behind what is written the output is unchanged"),
    (WorkKept, "work kept", "after refusals other than 13 the work buffer is unchanged"),
    (WorkZero, "work zero", "after the others the first 16,384 work words are zero"),
    (WorkBehind, "work behind", "and the others unchanged"),
    (Outside, "outside", "the words and bytes around the lent ones are unchanged"),
    (Layout, "layout", "kinds, lengths, the end's count and the answer's count of words"),
    (Width, "width", "kind 4 holds the width"),
    (EqualSizes, "equal sizes", "the members have as many voices as there are threads, and as kind 4 says"),
    (Apart, "apart", "members are episodes, and none has a way to another or is there twice"),
    (Voiced, "voiced", "each member has one voice or more"),
    (Rising, "rising", "the members rise"),
    (Cover, "cover", "each next pair of steps is a link that counts, and each episode is on as many threads as it has voices"),
    (Passed, "passed", "exactly as many threads as its voices pass each member"),
    (Paired, "paired", "the threads stand in the members' order, and each holds one member alone"),
    (Furthest, "furthest", "the apart set is the furthest of the heaviest"),
    (Loop, "loop", "different episodes, joined and closed by links that count, the smallest first, as many as the place says"),
    (FairCopy, "fair copy", "the fair copy, word for word"),
    (TrimmedCopy, "trimmed copy", "the trimmed copy, word for word"),
    (Stretch, "stretch", "the stretch of thread i, or an empty one"),
    (Text, "text", "the text, byte for byte"),
    (TextKept, "text kept", "a text buffer that is too short is unchanged"),
    (TextBehind, "text behind", "behind the text the text buffer is unchanged"),
    (
        AsReport,
        "as report",
        "a text call gives the number and the value of a report call on the words, and leaves the same output and work words",
    ),
    (OwnText, "own text", "the text says what reading, link count and report give"),
    (SameText, "same text", "logs with the same n, voices and links that count have the same text but for threads and loop"),
    (SameCopy, "same copy", "logs with the same version, n, links, least pauses and voices have the same fair copy"),
    (OtherCopy, "other copy", "a link more, an episode more, or another least pause, gives another fair copy"),
    (
        ReadBack,
        "read back",
        "read back, the fair copy has the version, the n and the voices of the log, and its links once, rising, with least pauses",
    ),
    (CopyOfCopy, "copy of copy", "the fair copy of a fair copy is itself"),
    (
        SameReport,
        "same report",
        "logs with the same n, voices and links that count, whatever their pauses, have the same width and apart set, or a loop",
    ),
    (OwnThreads, "own threads", "each thread of a report can be had from its words, and no other"),
    (
        SameOutcome,
        "same outcome",
        "reading, link count, report and trimmed copy have the same refusal 1 to 10 or 18 to 21; the last two a loop, or none",
    ),
    (
        SameTrimmed,
        "same trimmed",
        "logs with the same n, ways and voices, whatever their versions and pauses, have the same trimmed copy",
    ),
    (OtherTrimmed, "other trimmed", "a way more, a way fewer, or an episode more, gives another trimmed copy"),
    (TrimmedOfCopies, "trimmed of copies", "fair and trimmed copy have the trimmed copy of the log; its fair copy is itself"),
    (
        TrimmedWays,
        "trimmed ways",
        "the trimmed copy passes in version 0, with the n, the ways and the voices of the log, no repeat, no pause and no loop",
    ),
    (TrimmedReport, "trimmed report", "log and trimmed copy have the same width and apart set"),
    (TrimmedCover, "trimmed cover", "the threads of the report on the trimmed copy are a cover of the log"),
    (Least, "least", "a log with the same n and ways has each link of the trimmed copy"),
    (BothDoors, "both doors", "the Rust wrapper and the C header give the same link count, and the same text"),
    (
        ReadCount,
        "read count",
        "the link count is that of the to words of its fair copy whose links count, and at most the log's count of to words",
    ),
    (
        SameCount,
        "same count",
        "logs with the same links that count, whatever their order, repeats, pauses and n, have the same link count",
    ),
    (OtherCount, "other count", "a link more that counts is one more in the link count, one fewer is one fewer"),
    (TrimmedCount, "trimmed count", "the link count of the trimmed copy is its count of to words, and at most that of the log"),
    (VersionCopy, "version copy", "the fair copies of a log in both versions differ in the head alone"),
    (VersionWidth, "version width", "version 1 instead of 0 makes no log narrower, and gives it no loop and no link more"),
    (
        ShortPauses,
        "short pauses",
        "a log without a pause above 360 has the same report, link count and trimmed copy in both versions",
    ),
    (
        CountedAlone,
        "counted alone",
        "a log of version 1 has the report, link count and trimmed copy of its links that count alone in version 0",
    ),
    (VoicesOrder, "voices order", "voices words in another order give the same report, link count and copies"),
    (SaidOnes, "said ones", "voices words that say 1 change no report, link count and copy"),
    (OtherVoices, "other voices", "other voices give another fair and another trimmed copy, and the same link count"),
    (Doors, "doors", "a log of doors alone has the report of no threads, or a loop"),
    (
        VoiceMore,
        "voice more",
        "one voice more leaves the width or makes it one more, one voice fewer leaves it or makes it one less",
    ),
    (AllDuets, "all duets", "a log of duets alone has twice the width of that of one voice each, and its apart set"),
    (AsItems, "as items", "a log has the width and the apart set of that with an episode for each voice and a link for each way"),
    (Worked, "worked", "the logs that were worked through by hand"),
    (Ends, "ends", "the call comes back, without a panic"),
    (Older, "older build", "the answer of an older build and every word that it leaves"),
];

pub fn name(check: Check) -> &'static str {
    CHECKS.iter().find(|row| row.0 == check).expect("every check has a row").1
}

/// What the checks of one call found.
#[derive(Default)]
pub struct Found(pub Vec<(Check, String)>);

impl Found {
    pub fn say(&mut self, check: Check, what: impl FnOnce() -> String) {
        if !self.0.iter().any(|found| found.0 == check) {
            self.0.push((check, what()));
        }
    }

    /// Records a failure unless `holds`.
    pub fn ask(&mut self, check: Check, holds: bool, what: impl FnOnce() -> String) {
        if !holds {
            self.say(check, what);
        }
    }
}

/// A call whose answer or buffers are not what they must be.
pub struct Disagreement {
    pub service: &'static str,
    pub found: Vec<(Check, String)>,
    pub lengths: String,
    pub words: Vec<u32>,
    /// Where bytes came in: those behind the words.
    pub rest: Vec<u8>,
}

pub type Checked<T> = Result<T, Box<Disagreement>>;
