//! Deliberate faults: each alters what the library answers or leaves. The checks have to catch every one.

use crate::checkers::{self, Shown};
use crate::counts::Service;
use crate::lent::Lent;
use crate::model::{report_on, trimmed_copy_of};
use crate::reference::{
    Graph, TEXT, WORK, bytes, copy_need, copy_words, in_order, joined_past, least, noted, parts, report_need, said, voices,
};
use crate::services::{Answer, Door, ReadAnswer, Services, TextAnswer, ThreadAnswer};
use crate::text_faults::{self, Buffers};
use crate::voice_faults::{self, Placed};
use crate::words::{
    APART, END, FROM, HEAD, LARGEST, LARGEST_PAUSE, LONGEST_COUNTED, Link, Noted, STEP, THREAD, TO, VOICES, WIDTH,
};
use crate::words::{bytes as as_bytes, report, word};
use crate::words::{episode, episodes, head_word, in_version, kind, number, older, pause, to_word, version, voices_word};
use std::collections::{BTreeMap, BTreeSet};
use std::ops::BitXorAssign;

macro_rules! faults {
    ($($fault:ident = $name:literal,)*) => {
        #[derive(Clone, Copy, Debug, PartialEq, Eq)]
        pub enum Fault { $($fault,)* }

        pub const FAULTS: &[(Fault, &str)] = &[$((Fault::$fault, $name),)*];
    };
}

faults! {
    PlaceOff = "a refusal's place one too high",
    SevenBeforeSix = "question 7 before question 6",
    EightEarly = "8 for the 4,096th to word",
    PassingRefused = "3 for 200 episodes",
    EndBelieved = "the end's number taken for the count",
    RepeatsOnce = "the reading counts a repeated link once",
    OneMore = "width one higher: a member and a single thread more",
    KindFour = "kind 4 alone one higher",
    LeastFar = "the largest apart set that is least far along",
    ShareNothing = "threads that share nothing",
    NoLink = "apart as no link",
    OneThreadThenSingles = "one true thread, then single episodes",
    Greedy = "each time the thread with most uncovered episodes",
    RefusesAll = "every log refused with 10",
    OneForAll = "one report for all logs",
    NoWords = "no words written",
    AlongWays = "a step left out where a way leads on",
    EpisodeLeft = "an episode left out of the cover",
    ThreadsSwapped = "two threads swapped",
    Falling = "members and threads falling",
    OtherMember = "a member replaced by another step of its thread",
    TwoMembers = "a thread replaced by one with another member",
    EndOff = "the report's end one too high",
    CountOff = "the report's count of words one too low",
    BehindReport = "the word behind the report changed",
    BehindLoop = "the word behind the loop changed",
    WorkLeft = "the last of 16,384 work words not zero",
    WorkFirstLeft = "the first work word as it was",
    WorkBehind = "work words behind the 16,384 zero",
    OutsideOutput = "the word behind the lent output changed",
    OutsideWork = "the word in front of the work buffer changed",
    RefusalWrites = "refusal 12 writes to the output",
    RefusalClears = "refusal 11 clears the work buffer",
    ElevenTooMany = "11 with words enough",
    TwelveFirst = "question 12 before question 11",
    TwelveLength = "12 with the buffer's length as its place",
    LogChanged = "a word of the log changed",
    LoopTurned = "a loop not from its smallest episode",
    LoopOpen = "a loop without its last episode",
    LoopLonger = "a loop with the first episode again at its end",
    LoopPlace = "13 with a place one too high",
    CopyRepeats = "a link twice in the copy",
    CopyFalling = "two to words of the copy the wrong way round",
    CopyAsIs = "the log as it is for a copy",
    CopyNoLoops = "links of an episode to itself left out of the copy",
    CopyHead = "the copy with 200 episodes",
    CopyCount = "the copy's count of words one too high",
    CopyNeed = "11 for a copy with repeats counted once",
    BehindCopy = "the word behind the copy changed",
    StretchShort = "a thread's stretch one short",
    StretchHead = "the thread word in the stretch",
    NextThread = "thread i + 1 for thread i",
    SeventeenForSixteen = "17 for 16",
    SixteenForEmpty = "16 for the report of width 0",
    LastThread = "the last thread where there is no thread i",
    HalfNumber = "i cut to 32 bits",
    WordsBehind = "words behind a report's end let through",
    LayoutUnread = "a damaged report's thread given all the same",
    RefusedStretch = "a stretch that begins at 1 with a refusal",
    ReportChanged = "a thread call that changes the report",
    Panics = "a call that panics",
    TrimKept = "a link kept though a longer path leads round it",
    TrimTwo = "only paths of two links taken for other paths",
    TrimRepeat = "a link dropped for its own repeat",
    TrimLoopCopied = "a loop told as a trimmed copy",
    TrimFair = "the fair copy for the trimmed one",
    TrimLeftOut = "a link that stays left out",
    TrimWays = "every way as a link of the trimmed copy",
    TrimHead = "the trimmed copy with 200 episodes",
    TrimFalling = "two to words of the trimmed copy the wrong way round",
    TrimCount = "the trimmed copy's count of words one too high",
    TrimBehind = "the word behind the trimmed copy changed",
    TrimNeed = "11 for a trimmed copy with repeats counted once",
    TrimNeedOwn = "11 by the words of the trimmed copy itself",
    TrimTenUnasked = "question 10 not asked for a trimmed copy",
    TrimLoopTurned = "the trimmed call's loop not from its smallest episode",
    TrimLoopUnwritten = "the trimmed call's 13 without a loop in the output",
    TrimLoopBehind = "the word behind the trimmed call's loop changed",
    TrimLoopWork = "work words not zero after the trimmed call's 13",
    TrimThirteenFirst = "question 13 before questions 11 and 12 for a trimmed copy",
    SevenWhole = "question 7 of a to word by its whole number",
    SevenFromLow = "question 7 of a from word by its low 16 bits alone",
    EpisodeByte = "the later episode by its low 8 bits alone",
    EpisodeBit = "the later episode without bit 15",
    HeadLow = "n by the head's low 16 bits alone",
    EndLow = "the end's count by its low 16 bits alone",
    PauseBit = "the pause without bit 27",
    PauseDropped = "no pauses in the fair copy",
    PauseLargest = "the largest pause for the least",
    PauseFirst = "the first pause for the least",
    PauseLast = "the last pause for the least",
    PauseSum = "the sum of a link's pauses for the least",
    PauseSigned = "pauses compared as numbers with a sign",
    PauseZero = "pause 0 taken for none beside others",
    PauseMost = "a link of 4,095 minutes left out of the copy",
    PauseGroup = "the least pause of an episode's links for each of them",
    PauseBack = "the least pause of a link and the link back for both",
    PauseKept = "least pauses kept from one episode's links to the next one's",
    PauseLastGroup = "the least pause of the last group that has the link",
    PauseRepeats = "a link once for each of its pauses in the copy",
    PauseRising = "to words of the copy rising by number",
    TrimPause = "the least pause left in the trimmed copy",
    TrimMinutes = "a link dropped only for a path of no more minutes",
    PauseParts = "links with a pause do not join",
    StepPause = "a thread's steps with the pauses before them",
    LoopPause = "a loop's steps with the pauses before them",
    CountToWords = "to words counted for links",
    CountNeighbours = "only repeats side by side counted once",
    CountGroups = "repeats in another group counted",
    CountPauses = "a link counted once for each of its pauses",
    CountUnordered = "a link and the link back counted as one",
    CountOwn = "links of an episode to itself not counted",
    CountLast = "the last to word not counted",
    CountLastGroup = "only the last group of an episode counted",
    CountLastEpisode = "links from the last episode not counted",
    CountFrom = "episodes that have links counted for links",
    CountTo = "later episodes counted for links",
    CountForgotten = "a link count of 0",
    CountShort = "the link count by its low 12 bits",
    CountRow32 = "later episodes 32 apart counted as one",
    CountRow128 = "later episodes 128 apart counted as one",
    CountFrom128 = "earlier episodes 128 apart counted as one",
    CountRows = "rows of 192 bits, each of which runs into the next one",
    CountTrimmed = "links that others imply not counted",
    CountWays = "ways counted for links",
    CountLoop = "13 for the link count of a log with a loop",
    CountGiven = "a link count though one of the questions 4 to 9 refuses",
    CountTenUnasked = "question 10 not asked for the link count",
    CountTenOnce = "question 10 by the link count",
    CountEightOnce = "question 8 by the link count",
    CountNoPlace = "a refusal of the link count without its place",
    CountForPlace = "the links so far for the place of a refusal",
    CountLog = "a link count that changes the log",
    CountOutside = "a link count that changes the word behind the log",
    CountKept = "links kept from one link count to the next",
    CountKeptRefused = "links before a refusal kept for the next link count",
    CountRust = "to words counted for links by the Rust wrapper alone",
    CountC = "to words counted for links by the C header alone",
    BorderOut = "a link with a least pause of 360 does not count",
    BorderIn = "a link with a least pause of 361 counts",
    BorderBits = "long by the low 9 bits of a pause",
    BorderSigned = "pauses with bit 27 taken for short",
    BorderZero = "a link with a least pause of 0 does not count in version 1",
    ZeroDrops = "version 0 drops links with more than 360 minutes",
    ZeroRepeats = "version 0 drops links that are repeated with more than 360 minutes",
    OneKeeps = "version 1 keeps every link",
    OneDrops = "version 1 drops every link",
    OneRepeats = "version 1 keeps links that are repeated",
    VersionsTurned = "versions 0 and 1 the wrong way round",
    LongLargest = "the largest pause of a link asked for its least",
    LongFirst = "the first pause of a link asked for its least",
    LongLast = "the last pause of a link asked for its least",
    LongSum = "the sum of a link's pauses asked for its least",
    LongBack = "a link counts where the link back does",
    LongGroup = "an episode's links count where one of them does",
    ReportLong = "the report with links that do not count",
    LoopLong = "a loop closed by a link that does not count",
    CountLong = "the link count with links that do not count",
    TrimLong = "trimming with links that do not count",
    TrimLongAdded = "the trimmed copy with links that do not count beside those that stay",
    TrimLongRound = "a link dropped for a path over links that do not count",
    TrimVersion = "the trimmed copy with the version of the log",
    CopyVersion = "the fair copy without its version",
    CopyVersionOne = "every fair copy of version 1",
    CopyOfCopy = "the last link left out of the fair copy of a fair copy",
    CopyNoLong = "links that do not count left out of the fair copy",
    CopyShort = "long pauses cut to 361 in the fair copy",
    ReadHead = "the version in the n of the reading",
    ReadNoLong = "to words of links that do not count left out of the reading's count",
    SevenNoLong = "question 7 not asked of to words with more than 360 minutes",
    EightNoLong = "the reading's question 8 without to words of links that do not count",
    TenNoLong = "question 10 without to words of links that do not count",
    NeedNoLong = "11 for a copy without to words of links that do not count",
    TrimNeedNoLong = "11 for a trimmed copy without to words of links that do not count",
    HeadWhole = "n by all 28 bits of the head",
    ThreeFirst = "question 3 before question 18",
    ThreeForEighteen = "3 for 18",
    EighteenOne = "18 for version 1",
    VersionUnasked = "question 18 not asked, and version 1 for the others",
    VersionBit = "the version by its lowest bit alone",
    VersionTwoBits = "the version by its low 2 bits alone",
    VersionThreeBits = "the version by its low 3 bits alone",
    EighteenBeforeOne = "question 18 before question 1",
    EighteenBeforeTwo = "question 18 before question 2",
    EighteenLast = "question 18 after question 10",
    EighteenPlace = "18 with the version as its place",
    EighteenWrites = "18 writes to the output",
    EighteenClears = "18 clears the work buffer",
    EighteenRead = "question 18 not asked by the reading",
    EighteenLinks = "question 18 not asked by the link count",
    EighteenReport = "question 18 not asked by the report",
    EighteenFair = "question 18 not asked by the fair copy",
    EighteenTrim = "question 18 not asked by the trimmed copy",
    VoicesRefused = "4 for every voices word",
    VoicesLate = "a voices word behind a group let through",
    VoicesLateAll = "a voices word in front of a group that is not the first let through",
    VoicesNext = "4 for 6 where a voices word follows a from word",
    VoicesFive = "4 for 5 behind voices words",
    VoicesEight = "voices words counted by question 8",
    VoicesTen = "voices words counted by question 10",
    VoicesCounted = "voices words counted with the to words of the reading",
    VoicesNine = "a voices word for the end let through",
    TwentyEarly = "20 for 120 episodes",
    TwentyLate = "20 only above 121 episodes",
    TwentyUnasked = "question 20 not asked",
    TwentyOthers = "question 20 asked only where the voices are not 1",
    TwentyPlace = "20 with place 0",
    TwentyHead = "20 of a log with 121 episodes or more and no voices word",
    SevenFirst = "question 7 of a voices word before question 20",
    SevenVoices = "question 7 not asked of voices words",
    SevenVoicesLow = "the episode of a voices word by its low 8 bits alone",
    SevenVoicesWhole = "question 7 of a voices word by its whole number",
    NineteenFirst = "question 19 before question 7",
    NineteenBeforeTwenty = "question 19 before question 20",
    NineteenUnasked = "question 19 not asked, and 2 voices for more",
    NineteenThree = "3 voices let through",
    NineteenLow = "voices by their low 2 bits alone",
    NineteenTwo = "19 for 2 voices",
    NineteenZero = "19 for no voices",
    TwentyOneFirst = "question 21 before question 19",
    TwentyOneUnasked = "question 21 not asked, and the first voices word kept",
    TwentyOneLast = "question 21 not asked, and the last voices word kept",
    TwentyOneSame = "21 only where the voices differ",
    TwentyOneOnes = "21 only behind other voices than 1",
    TwentyOneNext = "21 only for voices words side by side",
    VoicesPlace = "19 and 21 with the episode as the place",
    VoicesOrder = "21 where voices words do not rise",
    VoicesWrites = "refusals 19 to 21 write to the output",
    VoicesClears = "refusals 19 to 21 clear the work buffer",
    VoicesRead = "questions 19 and 21 not asked by the reading",
    VoicesLinks = "questions 19 and 21 not asked by the link count",
    VoicesReport = "questions 19 and 21 not asked by the report",
    VoicesFair = "questions 19 and 21 not asked by the fair copy",
    VoicesTrim = "questions 19 and 21 not asked by the trimmed copy",
    VoicesIgnored = "voices ignored by the report",
    VoicesShifted = "the voices of episode v + 1 for episode v",
    VoicesFirst = "only the first voices word heard",
    VoicesLastWord = "the last voices word not heard",
    DoorsIgnored = "a door taken for an episode with one voice",
    DuetsIgnored = "a duet taken for an episode with one voice",
    DoorsOut = "doors taken out, with their links",
    LargestSet = "the largest apart set instead of the heaviest",
    HeaviestLeastFar = "the furthest set of one voice each, where it is as heavy",
    DoorMember = "a member without voices",
    DuetOnce = "one thread for a duet",
    DuetThird = "a thread more for a duet",
    DuetTwice = "a duet twice in the apart set",
    DuetLast = "the second thread of each duet behind all others",
    DuetOther = "a thread of a duet replaced by one of another member",
    ThreadsRotated = "the first thread behind all others",
    MembersCounted = "kind 4 holds how many members there are",
    VoicesSummed = "kind 4 holds the sum of all voices",
    DoorCovered = "a thread more for a door",
    DoorStepped = "doors left out of the threads",
    AllDoorsOne = "a thread for the first episode where all are doors",
    AllDoorsLoop = "a loop of doors alone let through",
    NeedPlain = "11 with 2 + 2n + q for a log with a voices word",
    NeedVoices = "11 with 2 + 3n + 2q for every log",
    NeedOnes = "11 with 2 + 2n + q where all voices words say 1",
    CopyVoices = "the fair copy without voices words",
    CopyOnes = "voices words that say 1 in the fair copy",
    CopyEach = "a voices word for each episode in the fair copy",
    CopyGiven = "voices words in the order of the log in the fair copy",
    CopyBehind = "voices words behind the groups of the fair copy",
    CopyDoors = "only doors in the voices words of the fair copy",
    CopyDuets = "only duets in the voices words of the fair copy",
    CopyVoicesSwapped = "duets and doors the wrong way round in the fair copy",
    CopyVoicesNeed = "11 for a copy without voices words",
    CopyVoicesOwn = "11 for a copy with only the voices words that it writes",
    CopyVoicesTwice = "11 for a copy with two words for each voices word",
    TrimVoices = "the trimmed copy without voices words",
    TrimOnes = "voices words that say 1 in the trimmed copy",
    TrimGiven = "voices words in the order of the log in the trimmed copy",
    TrimVoicesNeed = "11 for a trimmed copy without voices words",
    TrimVoicesOwn = "11 for a trimmed copy with only the voices words that it writes",
    TrimDoors = "links from and to doors left out of the trimmed copy",
    TrimDoorRound = "a link dropped only for a path without doors",
    CountDoors = "links from and to doors not counted",
    CountVoices = "voices words counted for links",
    ApartEqual = "16 for a report with fewer apart words than threads",
    ApartMore = "one apart word more than threads let through",
    ApartNone = "16 for a report with threads and no apart word",
    ApartThreads = "17 by the count of apart words",
    ApartStart = "threads sought behind k apart words",
    TextZero = "a zero before the first figure of a text",
    TextZeros = "zeros in front of figures of a text, up to three digits",
    TextSpaces = "two spaces before a figure of a text",
    TextLineSpace = "a space at the end of a text's first line",
    TextApartSpace = "a space behind apart in a text where the set is empty",
    TextMembersSpace = "a space behind the last member in a text",
    TextApartZero = "apart 0 in a text where the set is empty",
    TextApartGone = "no line apart in a text where the set is empty",
    TextNewline = "no newline at the end of a text",
    TextEmptyLine = "an empty line at the end of a text",
    TextReturns = "carriage returns in a text",
    TextZeroByte = "a zero byte at the end of a text",
    TextLastThread = "the last thread left out of a text",
    TextThreadLength = "a thread's length for its first episode in a text",
    TextThreadCount = "a thread's length in front of its episodes in a text",
    TextLastStep = "the last episode of each thread left out of a text",
    TextThreadsTurned = "the threads of a text the other way round",
    TextStepsTurned = "the episodes of a text's threads the other way round",
    TextOneMore = "the episodes of a text's threads counted from 1",
    TextHundreds = "figures of a text by their last two digits",
    TextLowByte = "figures of a text by their low 8 bits",
    TextHexadecimal = "figures of a text in hexadecimal",
    TextCommas = "commas in figures of a text",
    TextNoZero = "no digit for the figure 0 in a text",
    TextHead = "the version in the episodes of a text",
    TextToWords = "to words for links in a text",
    TextHeard = "links that do not count in the links of a text",
    TextVoicesCounted = "voices words counted for links in a text",
    TextMembers = "the count of members for the width in a text",
    TextOrder = "links before episodes in a text",
    TextWidthGone = "no line width in a text",
    TextTwice = "a duet twice in the apart set of a text",
    TextCover = "another cover or loop in a text than in the output",
    TextLoopGone = "no line loop in a text",
    TextLoopClosed = "the loop in a text with its first episode again at its end",
    TextLoopLength = "the loop in a text with its length in front",
    TextLoopTurned = "the loop in a text the other way round",
    TextPlace = "the place in a text one too high",
    TextNoPlace = "no place in a text",
    TextNone = "no text for 11 and 12 of output and work buffer",
    TextKept = "the text of a log again for the next refused one",
    TextFourteenTold = "14 with the byte count as its place in a text",
    TextFourteenCount = "14 with the byte count as its place",
    TextFourteenLate = "14 only above 33,259 bytes",
    TextFourteenEarly = "14 for 33,256 bytes",
    TextFifteenFirst = "question 15 before question 14",
    TextFifteenPlace = "15 with the count of whole words as its place",
    TextFifteenNone = "15 for no bytes",
    TextFifteenUnasked = "question 15 not asked, and the bytes behind the words left out",
    TextHighFirst = "the highest byte of a word first",
    TextElevenLate = "11 of the text buffer after 14 and 15",
    TextElevenWords = "11 of the text buffer after the questions of the words",
    TextElevenLast = "11 of the text buffer after 11 and 12 of the others",
    TextElevenOwn = "11 of the text buffer only where the text itself does not fit",
    TextElevenLess = "a text in 42,639 bytes",
    TextElevenExact = "11 of a text buffer of 42,640 bytes",
    TextElevenPlace = "11 of the text buffer with its length as the place",
    TextElevenTwelve = "12 of the text buffer",
    TextElevenTold = "a text in a text buffer that is too short",
    TextElevenWrites = "11 of the text buffer writes to it",
    TextElevenOut = "11 of the text buffer writes to the output",
    TextElevenWork = "11 of the text buffer clears the work buffer",
    TextRefusedOut = "14 and 15 write to the output",
    TextRefusedWork = "14 and 15 clear the work buffer",
    TextBytesMore = "one byte too many of a text counted",
    TextBytesFewer = "one byte too few of a text counted",
    TextBytesNone = "0 bytes for the text of a refusal",
    TextBehind = "the byte behind a text changed",
    TextCleared = "the text buffer zero behind a text",
    TextLoopNumber = "0 for 13 by the text call",
    TextLoopValue = "13 with a place one too high by the text call",
    TextValueBytes = "the count of bytes for the count of words",
    TextOutLeft = "no words written by the text call",
    TextWorkLeft = "the last of 16,384 work words not zero after a text call",
    TextLogChanged = "a byte of the log changed",
    TextOutside = "the byte behind the lent text buffer changed",
    TextOutsideLog = "the byte in front of a log changed",
    TextRust = "a zero before a figure of a text by the Rust wrapper alone",
    TextC = "a zero before a figure of a text by the C header alone",
    TextEighteen = "question 18 not asked by the text call",
    TextVoices = "questions 19 and 21 not asked by the text call",
    TextLong = "the text of a report with links that do not count",
    TextEpisodes = "n for the link count in a text",
}

/// The services with a fault, and the links and the text that the fault keeps from one call to the next.
pub struct Faulty<S>(Fault, BTreeSet<Link>, S, String);

impl<S: Services> Faulty<S> {
    pub fn new(fault: Fault, services: S) -> Faulty<S> {
        Faulty(fault, BTreeSet::new(), services, String::new())
    }

    /// A call of a service, which gets the words of the log as the fault misreads them.
    fn misread<T: Placed>(&mut self, service: Service, log: &mut Lent, call: impl FnOnce(&mut S, &mut Lent) -> T) -> T {
        let words = log.lent().to_vec();
        if let Some(other) = voice_faults::reread(self.0, service, &words) {
            let mut answer = call(&mut self.2, &mut Lent::of(&other));
            answer.move_on(words.len() - other.len());
            return answer;
        }
        let last = words.len().saturating_sub(1);
        let long = |given: u32| version(words[0]) == 1 && pause(given) > LONGEST_COUNTED;
        if let Some(other) = recounted(self.0, service, &words) {
            log.lent_mut().copy_from_slice(&other);
        }
        for (place, given) in log.lent_mut().iter_mut().enumerate() {
            let low = word(kind(*given), episode(*given));
            *given = match (self.0, kind(*given)) {
                // No log has so many episodes: the word is refused at its place.
                (Fault::SevenWhole, TO) if pause(*given) > 0 => to_word(65_535, 0),
                (Fault::SevenVoicesWhole, VOICES) if pause(*given) > 0 && place > 0 => voices_word(65_535, 0),
                (Fault::SevenFromLow, FROM) => low,
                (Fault::EpisodeByte, TO) => to_word(episode(*given) % 256, pause(*given)),
                (Fault::EpisodeBit, TO) => to_word(episode(*given) % 32_768, pause(*given)),
                (Fault::PauseBit, TO) => to_word(episode(*given), pause(*given) % 2_048),
                (Fault::SevenNoLong, TO) if long(*given) && episode(*given) >= episodes(words[0]) => to_word(0, pause(*given)),
                (Fault::EndLow, _) if place == last => low,
                (fault, HEAD) if place == 0 => misread_head(fault, service, *given),
                _ => *given,
            }
        }
        let answer = call(&mut self.2, log);
        log.lent_mut().copy_from_slice(&words);
        answer
    }

    /// Faults of the reading, in every service that reads a log.
    fn refusal(&self, log: &[u32], number: u32, place: usize) -> (u32, usize) {
        let (n, version) = log.first().map_or((0, 0), |&head| (episodes(head), version(head)));
        let after = || in_order(&in_version(0, log.to_vec())).err();
        match self.0 {
            Fault::TenNoLong if number == 0 && to_words_counted(log) < to_words(log) => (10, log.len() - 1),
            Fault::ThreeFirst if number == 18 && n > 200 => (3, 0),
            Fault::ThreeForEighteen if number == 18 => (3, 0),
            Fault::EighteenBeforeOne if number == 1 && version > 1 => (18, 0),
            Fault::EighteenBeforeTwo if number == 2 && version > 1 => (18, 0),
            Fault::EighteenLast if number == 18 => after().map_or((18, 0), |refusal| (refusal.number, refusal.place)),
            Fault::EighteenPlace if number == 18 => (18, version),
            Fault::PlaceOff if (4..=10).contains(&number) => (number, place + 1),
            Fault::SevenBeforeSix if number == 6 && self::number(log[place]) >= n => (7, place),
            Fault::EightEarly if in_order(log).is_ok_and(|read| read.links == 4_096) => (8, log.len() - 2),
            Fault::RefusesAll if number == 0 => (10, log.len() - 1),
            Fault::PassingRefused if in_order(log).is_ok_and(|read| read.n == 200) => (3, 0),
            fault => voice_faults::refusal(fault, log, number, place),
        }
    }

    /// Faults in the buffers of a call that was refused or not.
    fn buffers(&self, answer: Answer, log: &mut Lent, out: &mut Lent, work: &mut Lent) {
        let written = if matches!(answer.number, 0 | 13) { WORK } else { 0 };
        match self.0 {
            Fault::WorkLeft if written > 0 => work.lent_mut()[WORK - 1] = 1,
            Fault::WorkFirstLeft if written > 0 => work.lent_mut()[0] = work.before()[0],
            Fault::WorkBehind if written > 0 => work.lent_mut()[WORK..].fill(0),
            Fault::OutsideOutput => changed(out.with_outside_mut(), 16),
            Fault::OutsideWork => work.with_outside_mut()[15] ^= 1,
            Fault::RefusalWrites if answer.number == 12 => changed(out.lent_mut(), 1),
            Fault::RefusalClears if answer.number == 11 => work.lent_mut().fill(0),
            Fault::EighteenWrites if answer.number == 18 => changed(out.lent_mut(), 1),
            Fault::EighteenClears if answer.number == 18 => work.lent_mut().fill(0),
            Fault::VoicesWrites if (19..=21).contains(&answer.number) => changed(out.lent_mut(), 1),
            Fault::VoicesClears if (19..=21).contains(&answer.number) => work.lent_mut().fill(0),
            Fault::LogChanged => changed(log.lent_mut(), 1),
            _ => {}
        }
    }
}

/// The head as the fault misreads it.
fn misread_head(fault: Fault, service: Service, head: u32) -> u32 {
    let (version, n) = (version(head), episodes(head));
    match (fault, service) {
        (Fault::HeadLow, _) => head_word(version, n % 65_536),
        (Fault::HeadWhole, _) if version == 1 => head_word(0, 201),
        (Fault::EighteenOne, _) if version == 1 => head_word(2, n),
        (Fault::VersionUnasked, _)
        | (Fault::EighteenRead, Service::Read)
        | (Fault::EighteenLinks, Service::Links)
        | (Fault::EighteenReport, Service::Report)
        | (Fault::EighteenFair, Service::FairCopy)
        | (Fault::EighteenTrim, Service::TrimmedCopy)
        | (Fault::TextEighteen, Service::Text) => head_word(version.min(1), n),
        (Fault::VersionBit, _) => head_word(version % 2, n),
        (Fault::VersionTwoBits, _) => head_word(version % 4, n),
        (Fault::VersionThreeBits, _) => head_word(version % 8, n),
        _ => head,
    }
}

/// Whether a link with these pauses, in the order of the log, counts with the fault; none where the fault is another.
fn counts(fault: Fault, service: Service, version: usize, pauses: &[usize], all_loop: bool) -> Option<bool> {
    let short = |pause: usize| pause <= LONGEST_COUNTED;
    let least = pauses.iter().copied().min().unwrap_or(0);
    let right = version == 0 || short(least);
    Some(match (fault, service) {
        (Fault::BorderOut, _) => version == 0 || least < LONGEST_COUNTED,
        (Fault::BorderIn, _) => version == 0 || least <= LONGEST_COUNTED + 1,
        (Fault::BorderBits, _) => version == 0 || pauses.iter().any(|pause| short(pause % 512)),
        (Fault::BorderSigned, _) => version == 0 || pauses.iter().any(|&pause| short(pause) || pause >= 2_048),
        (Fault::BorderZero, _) => version == 0 || (least > 0 && short(least)),
        (Fault::ZeroDrops, _) => short(least),
        (Fault::ZeroRepeats, _) => right && (version == 1 || pauses.len() == 1 || pauses.iter().all(|&pause| short(pause))),
        (Fault::OneKeeps, _) => true,
        (Fault::OneRepeats, _) => right || pauses.len() > 1,
        (Fault::OneDrops, _) => version == 0,
        (Fault::VersionsTurned, _) => version == 1 || short(least),
        (Fault::LongLargest, _) => version == 0 || pauses.iter().all(|&pause| short(pause)),
        (Fault::LongFirst, _) => version == 0 || short(pauses[0]),
        (Fault::LongLast, _) => version == 0 || short(pauses[pauses.len() - 1]),
        (Fault::LongSum, _) => version == 0 || short(pauses.iter().sum()),
        (Fault::LongBack | Fault::LongGroup, _) => right,
        (Fault::LoopLong, Service::Report | Service::TrimmedCopy) => right || all_loop,
        (Fault::ReportLong, Service::Report) => true,
        (Fault::CountLong, Service::Links) => true,
        (Fault::TrimLong, Service::TrimmedCopy) => true,
        (Fault::TextLong, Service::Text) => true,
        _ => return None,
    })
}

/// A log of version 1 in which those links count that count with the fault: their to words have pause 0, the others the largest.
/// None where the fault is another, the log is refused, or the service does not ask which links count.
fn recounted(fault: Fault, service: Service, log: &[u32]) -> Option<Vec<u32>> {
    let asked = matches!(service, Service::Links | Service::Report | Service::TrimmedCopy | Service::Text);
    if !asked || counts(fault, service, 0, &[0], false).is_none() || in_order(log).is_err() {
        return None;
    }
    let of_all = fault == Fault::LoopLong && Graph::of_all(log).has_loop();
    let key = |from: usize, to: usize| match fault {
        Fault::LongBack => (from.min(to), from.max(to)),
        Fault::LongGroup => (from, 0),
        _ => (from, to),
    };
    let mut pauses: BTreeMap<Link, Vec<usize>> = BTreeMap::new();
    for (from, to, pause) in noted(log) {
        pauses.entry(key(from, to)).or_default().push(pause);
    }
    let mut from = 0;
    let mut words = in_version(1, log.to_vec());
    for given in &mut words[1..log.len() - 1] {
        match kind(*given) {
            TO => {
                let counts = counts(fault, service, version(log[0]), &pauses[&key(from, episode(*given))], of_all)?;
                *given = to_word(episode(*given), if counts { 0 } else { LARGEST_PAUSE });
            }
            _ => from = number(*given),
        }
    }
    Some(words)
}

/// How many to words the words have.
fn to_words(words: &[u32]) -> usize {
    words.iter().filter(|&&given| kind(given) == TO).count()
}

/// How many of them give links that count.
fn to_words_counted(words: &[u32]) -> usize {
    let links = least(&heard(words));
    let joins = |link: &&Noted| {
        let place = links.binary_search_by_key(&(link.0, link.1), |known| (known.0, known.1));
        version(words[0]) == 0 || place.is_ok_and(|place| links[place].2 <= LONGEST_COUNTED)
    };
    heard(words).iter().filter(joins).count()
}

/// How many voices words the words have.
fn voices_words(words: &[u32]) -> usize {
    words.iter().filter(|&&given| kind(given) == VOICES).count()
}

/// The links that words give, whatever they are.
fn heard(words: &[u32]) -> Vec<Noted> {
    let mut from = 0;
    let mut links = Vec::new();
    for &given in words {
        match kind(given) {
            FROM => from = number(given),
            TO => links.push((from, episode(given), pause(given))),
            _ => {}
        }
    }
    links
}

/// Changes the word or byte that stands `from_end` words before the end, where there is one.
fn changed<T: BitXorAssign + From<bool>>(words: &mut [T], from_end: usize) {
    if from_end <= words.len() {
        change_at(words, words.len() - from_end);
    }
}

/// Changes the word or byte at `place`, where there is one.
pub fn change_at<T: BitXorAssign + From<bool>>(words: &mut [T], place: usize) {
    if let Some(word) = words.get_mut(place) {
        *word ^= true.into();
    }
}

fn shown_words(shown: &Shown) -> Vec<u32> {
    let mut words = vec![word(WIDTH, shown.width)];
    words.extend(shown.apart.iter().map(|&member| word(APART, member)));
    for thread in &shown.threads {
        words.push(word(THREAD, thread.len()));
        words.extend(thread.iter().map(|&step| word(STEP, step)));
    }
    words.push(word(END, words.len()));
    words
}

/// Puts other words at the beginning of the output, as if the library had written them.
fn rewrite(out: &mut Lent, written: usize, words: &[u32]) -> bool {
    if words.len() > out.len() {
        return false;
    }
    let before = out.before()[..written].to_vec();
    out.lent_mut()[..written].copy_from_slice(&before);
    out.lent_mut()[..words.len()].copy_from_slice(words);
    true
}

/// The log with every link turned round.
fn turned(graph: &Graph) -> Vec<u32> {
    let mut words = copy_words(0, &graph.voices, &[]);
    words.pop();
    for &(from, to) in &graph.links {
        words.extend([word(FROM, to), word(TO, from)]);
    }
    words.push(word(END, graph.links.len()));
    words
}

/// The log without the links whose least pause is above 0.
fn without_paused(log: &[u32]) -> Vec<u32> {
    let links: Vec<Noted> = least(&noted(log)).into_iter().filter(|link| link.2 == 0).collect();
    copy_words(0, &Graph::of(log).voices, &links)
}

/// The model's report on a log, taken apart.
pub fn shown_on(log: &[u32]) -> Option<Shown> {
    checkers::layout(&report_on(log)?).ok()
}

/// Adds to each step the least pause of the link from the step before it, in bits 16 to 27. In a loop the last step
/// stands before the first.
fn add_pauses(log: &[u32], steps: &mut [usize]) {
    let links = least(&noted(log));
    let episodes = steps.to_vec();
    for (i, step) in steps.iter_mut().enumerate() {
        let before = episodes[(i + episodes.len() - 1) % episodes.len()];
        let link = links.iter().find(|&&(from, to, _)| (from, to) == (before, *step));
        *step += link.map_or(0, |link| link.2 << 16);
    }
}

/// The largest set of at most ten episodes of which no two are linked.
fn unlinked(graph: &Graph) -> Option<Vec<usize>> {
    if graph.n > 10 {
        return None;
    }
    let holds = |set: u32, v: usize| set >> v & 1 == 1;
    let free = |set: &u32| graph.links.iter().all(|&(from, to)| !(holds(*set, from) && holds(*set, to)));
    let largest = (0..1u32 << graph.n).filter(free).max_by_key(|set| set.count_ones())?;
    Some((0..graph.n).filter(|&v| holds(largest, v)).collect())
}

/// How many uncovered episodes the best thread from `at` holds.
fn best(graph: &Graph, at: usize, covered: &[bool], known: &mut [Option<usize>]) -> usize {
    if let Some(best) = known[at] {
        return best;
    }
    let behind = graph.next[at].iter().map(|&to| best(graph, to, covered, known)).max().unwrap_or(0);
    known[at] = Some(behind + usize::from(!covered[at]));
    behind + usize::from(!covered[at])
}

/// A cover by the thread with most uncovered episodes, again and again.
fn greedy(graph: &Graph) -> Vec<Vec<usize>> {
    let mut covered = vec![false; graph.n];
    let mut threads = Vec::new();
    while covered.contains(&false) {
        let known = &mut vec![None; graph.n];
        let mut at = (0..graph.n).max_by_key(|&v| best(graph, v, &covered, known));
        let mut thread = Vec::new();
        while let Some(v) = at {
            thread.push(v);
            at = graph.next[v].iter().copied().max_by_key(|&to| best(graph, to, &covered, known));
            at = at.filter(|&to| best(graph, to, &covered, known) > 0);
        }
        for &step in &thread {
            covered[step] = true;
        }
        threads.push(thread);
    }
    threads
}

/// The report with a fault in its parts, or none where the fault does not apply to it.
fn altered(fault: Fault, log: &[u32], mut shown: Shown) -> Option<Shown> {
    let graph = Graph::of(log);
    let k = shown.threads.len();
    match fault {
        Fault::OneMore => {
            let more = (0..graph.n).find(|v| !shown.apart.contains(v))?;
            shown.width += 1;
            shown.apart.push(more);
            shown.threads.push(vec![more]);
        }
        Fault::KindFour => shown.width += 1,
        Fault::LeastFar => {
            shown.apart = shown_on(&turned(&graph))?.apart;
            let threads = shown.threads.clone();
            let holding = |member: &usize| threads.iter().filter(|thread| thread.contains(member)).cloned().collect::<Vec<_>>();
            shown.threads = shown.apart.iter().flat_map(holding).collect();
        }
        Fault::ShareNothing => {
            let mut used = vec![false; graph.n];
            let mut parts: Vec<Vec<usize>> = Vec::new();
            for thread in &shown.threads {
                let mut part = Vec::new();
                for &step in thread {
                    if used[step] {
                        parts.push(std::mem::take(&mut part));
                    } else {
                        part.push(step);
                    }
                    used[step] = true;
                }
                parts.push(part);
            }
            parts.retain(|part| !part.is_empty());
            shown.width = parts.len();
            shown.threads = parts;
        }
        Fault::NoLink => {
            let members = unlinked(&graph).filter(|members| members.len() > k)?;
            shown.threads.resize_with(members.len(), Vec::new);
            for (thread, &member) in shown.threads.iter_mut().zip(&members).skip(k) {
                *thread = vec![member];
            }
            shown.width = members.len();
            shown.apart = members;
        }
        Fault::OneThreadThenSingles => {
            let longest = shown.threads.iter().max_by_key(|thread| thread.len())?.clone();
            let others = (0..graph.n).filter(|v| !longest.contains(v)).map(|v| vec![v]);
            shown.threads = std::iter::once(longest.clone()).chain(others).collect();
            shown.width = shown.threads.len();
        }
        Fault::Greedy => {
            shown.threads = greedy(&graph);
            if shown.threads.len() == k {
                return None;
            }
            shown.width = shown.threads.len();
        }
        Fault::OneForAll => shown = Shown { width: 0, apart: Vec::new(), threads: Vec::new() },
        Fault::AlongWays => {
            let skipped = |thread: &Vec<usize>| thread.windows(3).position(|steps| !graph.linked(steps[0], steps[2]));
            let (i, at) = shown.threads.iter().enumerate().find_map(|(i, thread)| Some((i, skipped(thread)?)))?;
            shown.threads[i].remove(at + 1);
        }
        Fault::EpisodeLeft => {
            let apart = shown.apart.clone();
            let i = shown.threads.iter().position(|thread| thread.len() > 1 && !apart.contains(&thread[0]))?;
            shown.threads[i].remove(0);
        }
        Fault::ThreadsSwapped if k >= 2 => shown.threads.swap(k - 2, k - 1),
        Fault::Falling if k >= 2 => {
            shown.apart.reverse();
            shown.threads.reverse();
        }
        Fault::OtherMember => {
            let (i, other) = shown.apart.iter().enumerate().find_map(|(i, member)| {
                let thread = shown.threads.iter().find(|thread| thread.contains(member))?;
                let other = thread.iter().find(|step| *step != member)?;
                Some((i, *other))
            })?;
            shown.apart[i] = other;
        }
        Fault::TwoMembers if k >= 2 => shown.threads[0] = shown.threads[1].clone(),
        Fault::PauseParts => shown = shown_on(&without_paused(log))?,
        Fault::StepPause => shown.threads.iter_mut().for_each(|thread| add_pauses(log, thread)),
        _ => return voice_faults::altered(fault, &graph, shown),
    }
    Some(shown)
}

/// A loop with a fault in it.
fn altered_loop(fault: Fault, log: &[u32], steps: &mut Vec<u32>) {
    match fault {
        Fault::LoopPause => {
            let mut with_pauses: Vec<usize> = steps.iter().map(|&step| number(step)).collect();
            add_pauses(log, &mut with_pauses);
            *steps = with_pauses.into_iter().map(|step| word(STEP, step)).collect();
        }
        Fault::LoopTurned | Fault::TrimLoopTurned => steps.rotate_left(1),
        Fault::LoopOpen if steps.len() > 1 => drop(steps.pop()),
        Fault::LoopLonger => steps.push(steps[0]),
        _ => {}
    }
}

/// The loop in the output with a fault in it; how many episodes it has then.
fn rewrite_loop(fault: Fault, log: &[u32], out: &mut Lent, length: usize) -> usize {
    let mut words = out.lent()[..length + 1].to_vec();
    let mut steps = words.split_off(1);
    altered_loop(fault, log, &mut steps);
    words[0] = words[0] & !LARGEST | steps.len() as u32;
    words.append(&mut steps);
    if rewrite(out, length + 1, &words) { words.len() - 1 } else { length }
}

/// Swaps the first two to words that stand side by side.
fn swap_two(copy: &mut [u32]) {
    if let Some(place) = copy.windows(2).position(|pair| kind(pair[0]) == TO && kind(pair[1]) == TO) {
        copy.swap(place, place + 1);
    }
}

/// Each link once, rising, with the pause that is chosen from its pauses in the order of the log.
fn chosen(log: &[u32], choose: impl Fn(&[usize]) -> usize) -> Vec<Noted> {
    let mut sorted = noted(log);
    sorted.sort_by_key(|link| (link.0, link.1));
    let repeats = sorted.chunk_by(|one, next| (one.0, one.1) == (next.0, next.1));
    repeats.map(|links| (links[0].0, links[0].1, choose(&Vec::from_iter(links.iter().map(|link| link.2))))).collect()
}

/// The links of a copy with a fault in their pauses, or none where the fault is another.
fn altered_pauses(fault: Fault, log: &[u32]) -> Option<Vec<Noted>> {
    let smallest = |pauses: &[usize]| pauses.iter().copied().min().unwrap_or(0);
    let mut links = least(&noted(log));
    match fault {
        Fault::PauseDropped => links.iter_mut().for_each(|link| link.2 = 0),
        Fault::PauseLargest => links = chosen(log, |pauses| pauses.iter().copied().max().unwrap_or(0)),
        Fault::PauseFirst => links = chosen(log, |pauses| pauses[0]),
        Fault::PauseLast => links = chosen(log, |pauses| pauses[pauses.len() - 1]),
        Fault::PauseSum => links = chosen(log, |pauses| pauses.iter().sum::<usize>().min(LARGEST_PAUSE)),
        Fault::PauseSigned => {
            let signed = |pause: &usize| (pause + 2_048) % 4_096;
            links = chosen(log, |pauses| pauses.iter().copied().min_by_key(signed).unwrap_or(0));
        }
        Fault::PauseZero => {
            links = chosen(log, |pauses| smallest(&Vec::from_iter(pauses.iter().copied().filter(|&pause| pause > 0))));
        }
        Fault::PauseMost => links.retain(|link| link.2 < LARGEST_PAUSE),
        Fault::CopyOfCopy if copy_words(version(log[0]), &voices_of(log), &links) == log => drop(links.pop()),
        Fault::CopyNoLong if version(log[0]) == 1 => links.retain(|link| link.2 <= LONGEST_COUNTED),
        Fault::CopyShort => links.iter_mut().for_each(|link| link.2 = link.2.min(LONGEST_COUNTED + 1)),
        Fault::PauseGroup => {
            for group in links.chunk_by_mut(|one, next| one.0 == next.0) {
                let pause = smallest(&Vec::from_iter(group.iter().map(|link| link.2)));
                group.iter_mut().for_each(|link| link.2 = pause);
            }
        }
        Fault::PauseBack => {
            let all = links.clone();
            for link in &mut links {
                let back = all.binary_search_by_key(&(link.1, link.0), |other| (other.0, other.1));
                link.2 = back.map_or(link.2, |back| link.2.min(all[back].2));
            }
        }
        Fault::PauseKept => {
            let mut known = vec![LARGEST_PAUSE; episodes(log[0])];
            for link in &mut links {
                known[link.1] = known[link.1].min(link.2);
                link.2 = known[link.1];
            }
        }
        Fault::PauseLastGroup => {
            // The groups are numbered from the last one, so that a link's last group comes first.
            let (mut from, mut group, mut all) = (0, log.len(), Vec::new());
            for &given in log {
                match kind(given) {
                    FROM => (from, group) = (number(given), group - 1),
                    TO => all.push((from, episode(given), group, pause(given))),
                    _ => {}
                }
            }
            all.sort_unstable();
            all.dedup_by_key(|link| (link.0, link.1));
            links = all.into_iter().map(|(from, to, _, pause)| (from, to, pause)).collect();
        }
        Fault::PauseRepeats => {
            links = noted(log);
            links.sort_unstable();
            links.dedup();
        }
        Fault::PauseRising => links.sort_by_key(|&(from, to, pause)| (from, pause, to)),
        _ => return None,
    }
    Some(links)
}

/// A copy with a fault in it.
fn altered_copy(fault: Fault, log: &[u32], copy: &mut Vec<u32>) {
    let last = copy.len() - 1;
    match fault {
        Fault::CopyRepeats if last >= 2 => {
            copy.insert(last, copy[last - 1]);
            copy[last + 1] += 1;
        }
        Fault::CopyFalling => swap_two(copy),
        Fault::CopyAsIs => *copy = log.to_vec(),
        Fault::CopyNoLoops => {
            let others: Vec<Noted> = noted(copy).into_iter().filter(|link| link.0 != link.1).collect();
            *copy = copy_words(version(copy[0]), &voices_of(log), &others);
        }
        Fault::CopyHead => copy[0] = head_word(version(copy[0]), 200),
        Fault::CopyVersion => copy[0] = head_word(0, episodes(copy[0])),
        Fault::CopyVersionOne => copy[0] = head_word(1, episodes(copy[0])),
        _ => {
            if let Some(links) = altered_pauses(fault, log) {
                *copy = copy_words(version(copy[0]), &voices_of(log), &links);
            } else {
                voice_faults::altered_copy(fault, Service::FairCopy, log, copy);
            }
        }
    }
}

/// A trimmed copy with a fault in it.
fn altered_trimmed(fault: Fault, log: &[u32], copy: &mut Vec<u32>) {
    let (graph, trimmed) = (Graph::of(log), Graph::of(copy));
    let mut kept = trimmed.links;
    match fault {
        Fault::TrimKept => kept.extend(graph.links.iter().find(|link| !kept.contains(link)).copied()),
        Fault::TrimTwo => {
            let round = |&(from, to): &Link| graph.next[from].iter().any(|&between| graph.linked(between, to));
            kept = graph.links.iter().copied().filter(|link| !round(link)).collect();
        }
        Fault::TrimRepeat => {
            let given = noted(log);
            kept.retain(|&link| given.iter().filter(|&&(from, to, _)| (from, to) == link).count() == 1);
        }
        Fault::TrimFair => kept = graph.links,
        Fault::TrimLeftOut => drop(kept.pop()),
        Fault::TrimWays => {
            for from in 0..graph.n {
                let ways = graph.ways_from(from);
                kept.extend((0..graph.n).filter(|&to| ways[to]).map(|to| (from, to)));
            }
        }
        Fault::TrimMinutes => {
            let links = least(&noted(log));
            kept.extend(links.iter().filter(|&&link| !shorter_path(&links, graph.n, link)).map(|link| (link.0, link.1)));
        }
        Fault::TrimPause => {
            let links = least(&noted(log)).into_iter().filter(|link| kept.contains(&(link.0, link.1)));
            return *copy = copy_words(0, &trimmed.voices, &Vec::from_iter(links));
        }
        Fault::TrimLongAdded => kept.extend(Graph::of_all(log).links.into_iter().filter(|link| !graph.links.contains(link))),
        Fault::TrimLongRound => {
            let Some(all) = trimmed_copy_of(&in_version(0, log.to_vec())) else { return };
            let stay = Graph::of(&all).links;
            kept.retain(|link| stay.contains(link));
        }
        Fault::TrimVersion => return copy[0] = head_word(version(log[0]), trimmed.n),
        Fault::PauseParts => return *copy = trimmed_copy_of(&without_paused(log)).unwrap_or_default(),
        Fault::TrimHead => return copy[0] = head_word(0, 200),
        Fault::TrimFalling => return swap_two(copy),
        Fault::TrimDoors => kept.retain(|link| graph.voices[link.0] > 0 && graph.voices[link.1] > 0),
        Fault::TrimDoorRound => {
            let doors: Vec<bool> = graph.voices.iter().map(|&voices| voices == 0).collect();
            kept.extend(graph.links.iter().filter(|&&link| !joined_past(&graph, doors.clone(), link)));
        }
        _ => return voice_faults::altered_copy(fault, Service::TrimmedCopy, log, copy),
    }
    *copy = copy_words(0, &trimmed.voices, &older(&Graph::new(trimmed.voices.clone(), kept).links));
}

/// The voices of the episodes of a log that passes.
fn voices_of(log: &[u32]) -> Vec<usize> {
    voices(episodes(log[0]), &said(log))
}

/// Whether other links lead from the first episode to the second in no more minutes.
fn shorter_path(links: &[Noted], n: usize, (first, second, most): Noted) -> bool {
    let mut minutes = vec![None; n];
    minutes[first] = Some(0);
    let mut changed = true;
    while changed {
        changed = false;
        for &(from, to, pause) in links.iter().filter(|link| (link.0, link.1) != (first, second)) {
            let Some(before) = minutes[from] else { continue };
            if minutes[to].is_none_or(|known| before + pause < known) {
                minutes[to] = Some(before + pause);
                changed = true;
            }
        }
    }
    minutes[second].is_some_and(|minutes| minutes <= most)
}

/// Gives a trimmed copy where nothing was written, if the buffers have room for it.
fn give_trimmed(copy: &[u32], out: &mut Lent, work: &mut Lent) -> Option<Answer> {
    if work.len() < WORK || !rewrite(out, 0, copy) {
        return None;
    }
    work.lent_mut()[..WORK].fill(0);
    Some(Answer { number: 0, value: copy.len() })
}

/// How many different ones there are.
fn different<T: Ord>(items: impl Iterator<Item = T>) -> usize {
    items.collect::<BTreeSet<T>>().len()
}

/// The different links that words give, whatever they are.
fn so_far(words: &[u32]) -> BTreeSet<Link> {
    heard(words).into_iter().map(|(from, to, _)| (from, to)).collect()
}

/// The links of a log with the group that each stands in.
fn in_groups(log: &[u32]) -> Vec<(Link, usize)> {
    let groups = log.iter().scan(0, |group, &given| {
        *group += usize::from(kind(given) == FROM);
        Some((kind(given), *group))
    });
    let groups = groups.filter(|given| given.0 == TO).map(|given| given.1);
    noted(log).into_iter().map(|(from, to, _)| (from, to)).zip(groups).collect()
}

/// The link count of a log that passes, with a fault in it, or none where the fault is another.
fn altered_count(fault: Fault, log: &[u32], kept: &mut BTreeSet<Link>) -> Option<usize> {
    let given = noted(log);
    let graph = Graph::of(log);
    let links = graph.links.iter().copied();
    let count = match fault {
        Fault::CountToWords => given.len(),
        Fault::CountNeighbours => given.chunk_by(|one, next| (one.0, one.1) == (next.0, next.1)).count(),
        Fault::CountGroups => different(in_groups(log).into_iter()),
        Fault::CountPauses => different(given.into_iter()),
        Fault::CountUnordered => different(links.map(|(from, to)| (from.min(to), from.max(to)))),
        Fault::CountOwn => links.filter(|(from, to)| from != to).count(),
        Fault::CountLast => different(given.split_last()?.1.iter().map(|link| (link.0, link.1))),
        Fault::CountLastGroup => {
            let all = in_groups(log);
            let last = |from: usize| all.iter().filter(|given| given.0.0 == from).map(|given| given.1).max();
            let lasts: Vec<Option<usize>> = (0..graph.n).map(last).collect();
            different(all.iter().filter(|given| lasts[given.0.0] == Some(given.1)))
        }
        Fault::CountLastEpisode => links.filter(|link| link.0 + 1 < graph.n).count(),
        Fault::CountDoors => links.filter(|&(from, to)| graph.voices[from] > 0 && graph.voices[to] > 0).count(),
        Fault::CountVoices => graph.links.len() + voices_words(log),
        Fault::CountFrom => different(links.map(|link| link.0)),
        Fault::CountTo => different(links.map(|link| link.1)),
        Fault::CountForgotten => 0,
        Fault::CountShort => graph.links.len() % 4_096,
        Fault::CountRow32 => different(links.map(|(from, to)| (from, to % 32))),
        Fault::CountRow128 => different(links.map(|(from, to)| (from, to % 128))),
        Fault::CountFrom128 => different(links.map(|(from, to)| (from % 128, to))),
        Fault::CountRows => different(links.map(|(from, to)| 192 * from + to)),
        Fault::CountTrimmed => Graph::of(&trimmed_copy_of(log)?).links.len(),
        Fault::CountWays => (0..graph.n).map(|v| graph.ways_from(v).iter().filter(|&&way| way).count()).sum(),
        Fault::CountKept => {
            kept.extend(links);
            kept.len()
        }
        Fault::CountKeptRefused => {
            kept.extend(links);
            std::mem::take(kept).len()
        }
        _ => return None,
    };
    Some(count)
}

impl<S: Services> Services for Faulty<S> {
    fn read(&mut self, door: Door, log: &mut Lent) -> ReadAnswer {
        let mut answer = self.misread(Service::Read, log, |services, log| services.read(door, log));
        (answer.number, answer.place) = self.refusal(log.lent(), answer.number, answer.place);
        let words = log.lent();
        match self.0 {
            Fault::EndBelieved if answer.number == 10 && kind(words[answer.place]) == END => {
                let (episodes, links) = (episodes(words[0]), number(words[answer.place]));
                answer = ReadAnswer { number: 0, place: 0, episodes, links };
            }
            Fault::ReadHead if answer.number == 0 => answer.episodes = number(words[0]),
            Fault::ReadNoLong if answer.number == 0 => answer.links = to_words_counted(words),
            Fault::VoicesCounted if answer.number == 0 => answer.links += voices_words(words),
            Fault::VoicesNine if answer.number == 9 && kind(words[answer.place]) == VOICES => {
                answer = ReadAnswer { number: 0, place: 0, episodes: episodes(words[0]), links: to_words(words) };
            }
            Fault::EightNoLong if answer.number == 8 && to_words_counted(words) <= 4_096 => {
                answer = ReadAnswer { number: 0, place: 0, episodes: episodes(words[0]), links: to_words(words) };
            }
            Fault::RepeatsOnce if answer.number == 0 => answer.links = so_far(words).len(),
            Fault::LogChanged => changed(log.lent_mut(), 1),
            _ => {}
        }
        answer
    }

    fn links(&mut self, door: Door, log: &mut Lent) -> Answer {
        let mut answer = self.misread(Service::Links, log, |services, log| services.links(door, log));
        (answer.number, answer.value) = self.refusal(log.lent(), answer.number, answer.value);
        let words = log.lent();
        let last = words.len().saturating_sub(1);
        match (self.0, answer.number) {
            (Fault::CountLoop, 0) if Graph::of(words).has_loop() => answer = Answer { number: 13, value: 1 },
            (Fault::CountTenOnce, 0) if so_far(words).len() != number(words[last]) => answer = Answer { number: 10, value: last },
            (Fault::CountTenOnce, 10) if so_far(words).len() != number(words[last]) => {}
            (Fault::CountGiven, 4..=9) | (Fault::CountTenUnasked | Fault::CountTenOnce, 10) => {
                answer = Answer { number: 0, value: so_far(&words[..answer.value]).len() };
            }
            (Fault::CountEightOnce, 8) if so_far(words).len() <= 4_096 => {
                answer = Answer { number: 0, value: so_far(words).len() };
            }
            (Fault::CountNoPlace, 1..) => answer.value = 0,
            (Fault::CountForPlace, 1..) => answer.value = so_far(&words[..answer.value]).len(),
            (Fault::CountKeptRefused, 1..) => self.1.extend(so_far(&words[..answer.value])),
            (Fault::CountRust, 0) if door == Door::Rust => answer.value = noted(words).len(),
            (Fault::CountC, 0) if door == Door::C => answer.value = noted(words).len(),
            (Fault::CountLog | Fault::LogChanged, _) => changed(log.lent_mut(), 1),
            (Fault::CountOutside, _) => changed(log.with_outside_mut(), 16),
            (fault, 0) if in_order(words).is_ok() => {
                answer.value = altered_count(fault, words, &mut self.1).unwrap_or(answer.value);
            }
            _ => {}
        }
        answer
    }

    fn report(&mut self, door: Door, log: &mut Lent, out: &mut Lent, work: &mut Lent) -> Answer {
        let mut answer = self.misread(Service::Report, log, |services, log| services.report(door, log, out, work));
        assert!(self.0 != Fault::Panics || answer.number != 13, "a fault");
        self.buffers(answer, log, out, work);
        (answer.number, answer.value) = self.refusal(log.lent(), answer.number, answer.value);
        let need = in_order(log.lent()).map_or(0, |read| report_need(read.n, read.voices));
        match (self.0, answer.number) {
            (Fault::EndOff, 0) => out.lent_mut()[answer.value - 1] += 1,
            (Fault::CountOff, 0) => answer.value -= 1,
            (Fault::NoWords, 0) => drop(rewrite(out, answer.value, &[])),
            (Fault::BehindReport, 0) => change_at(out.lent_mut(), answer.value),
            (Fault::BehindLoop, 13) => change_at(out.lent_mut(), answer.value + 1),
            (Fault::LoopPlace, 13) => answer.value += 1,
            (Fault::TwelveFirst, 11) if work.len() < WORK => answer = Answer { number: 12, value: WORK },
            (Fault::TwelveLength, 12) => answer.value = work.len(),
            (fault, 11) => answer.value = voice_faults::report_needed(fault, log.lent()).unwrap_or(answer.value),
            (Fault::AllDoorsLoop, 13) if voice_faults::only_doors(log.lent(), &out.lent()[1..answer.value + 1]) => {
                let words = report(&[], &[]);
                if rewrite(out, answer.value + 1, &words) {
                    answer = Answer { number: 0, value: words.len() };
                }
            }
            (Fault::ElevenTooMany, 0 | 13) if out.len() == need => {
                let (words, work_words) = (out.before().to_vec(), work.before().to_vec());
                out.lent_mut().copy_from_slice(&words);
                work.lent_mut().copy_from_slice(&work_words);
                answer = Answer { number: 11, value: need + 1 };
            }
            (Fault::LoopTurned | Fault::LoopOpen | Fault::LoopLonger | Fault::LoopPause, 13) => {
                answer.value = rewrite_loop(self.0, log.lent(), out, answer.value);
            }
            (fault, 0) if in_order(log.lent()).is_ok() => {
                let shown = checkers::layout(&out.lent()[..answer.value]);
                if let Some(other) = shown.ok().and_then(|shown| altered(fault, log.lent(), shown)) {
                    let words = shown_words(&other);
                    if rewrite(out, answer.value, &words) {
                        answer.value = words.len();
                    }
                }
            }
            _ => {}
        }
        answer
    }

    fn fair_copy(&mut self, door: Door, log: &mut Lent, out: &mut Lent, work: &mut Lent) -> Answer {
        let mut answer = self.misread(Service::FairCopy, log, |services, log| services.fair_copy(door, log, out, work));
        self.buffers(answer, log, out, work);
        (answer.number, answer.value) = self.refusal(log.lent(), answer.number, answer.value);
        match (self.0, answer.number) {
            (Fault::CopyCount, 0) => answer.value += 1,
            (Fault::BehindCopy, 0) => change_at(out.lent_mut(), answer.value),
            (Fault::CopyNeed, 11) => answer.value = copy_need(so_far(log.lent()).len(), voices_words(log.lent())),
            (Fault::NeedNoLong, 11) => answer.value = copy_need(to_words_counted(log.lent()), voices_words(log.lent())),
            (Fault::TwelveFirst, 11) if work.len() < WORK => answer = Answer { number: 12, value: WORK },
            (Fault::TwelveLength, 12) => answer.value = work.len(),
            (fault, 11) => answer.value = voice_faults::copy_needed(fault, Service::FairCopy, log.lent()).unwrap_or(answer.value),
            (fault, 0) if in_order(log.lent()).is_ok() => {
                let mut copy = out.lent()[..answer.value].to_vec();
                altered_copy(fault, log.lent(), &mut copy);
                if rewrite(out, answer.value, &copy) {
                    answer.value = copy.len();
                }
            }
            _ => {}
        }
        answer
    }

    fn trimmed_copy(&mut self, door: Door, log: &mut Lent, out: &mut Lent, work: &mut Lent) -> Answer {
        let mut answer = self.misread(Service::TrimmedCopy, log, |services, log| services.trimmed_copy(door, log, out, work));
        self.buffers(answer, log, out, work);
        (answer.number, answer.value) = self.refusal(log.lent(), answer.number, answer.value);
        let words = log.lent();
        match (self.0, answer.number) {
            (Fault::TrimCount, 0) => answer.value += 1,
            (Fault::TrimBehind, 0) => change_at(out.lent_mut(), answer.value),
            (Fault::TrimNeed, 11) => answer.value = copy_need(so_far(words).len(), voices_words(words)),
            (Fault::TrimNeedNoLong, 11) => answer.value = copy_need(to_words_counted(words), voices_words(words)),
            (Fault::TrimNeedOwn, 11) => {
                if let Some(copy) = trimmed_copy_of(words) {
                    let short = Answer { number: 11, value: copy.len() };
                    answer = give_trimmed(&copy, out, work).unwrap_or(short);
                }
            }
            (Fault::TrimTenUnasked, 10) => {
                let mut right = words.to_vec();
                right[answer.value] = word(END, to_words(words));
                if let Some(copy) = in_order(&right).ok().and_then(|_| trimmed_copy_of(&right)) {
                    answer = give_trimmed(&copy, out, work).unwrap_or(answer);
                }
            }
            (Fault::TrimLoopCopied, 13) => {
                let copy = copy_words(0, &voices_of(words), &least(&noted(words)));
                if rewrite(out, answer.value + 1, &copy) {
                    answer = Answer { number: 0, value: copy.len() };
                }
            }
            (Fault::TrimLoopTurned | Fault::LoopPause, 13) => answer.value = rewrite_loop(self.0, words, out, answer.value),
            (Fault::TrimLoopUnwritten, 13) => drop(rewrite(out, answer.value + 1, &[])),
            (Fault::TrimLoopBehind, 13) => change_at(out.lent_mut(), answer.value + 1),
            (Fault::TrimLoopWork, 13) => {
                let before = work.before()[..WORK].to_vec();
                work.lent_mut()[..WORK].copy_from_slice(&before);
            }
            (Fault::TrimThirteenFirst, 11 | 12) if Graph::of(words).has_loop() => answer = Answer { number: 13, value: 1 },
            (Fault::TwelveFirst, 11) if work.len() < WORK => answer = Answer { number: 12, value: WORK },
            (Fault::TwelveLength, 12) => answer.value = work.len(),
            (fault, 11) => answer.value = voice_faults::copy_needed(fault, Service::TrimmedCopy, words).unwrap_or(answer.value),
            (fault, 0) if in_order(words).is_ok() => {
                let mut copy = out.lent()[..answer.value].to_vec();
                altered_trimmed(fault, words, &mut copy);
                if rewrite(out, answer.value, &copy) {
                    answer.value = copy.len();
                }
            }
            _ => {}
        }
        answer
    }

    fn thread(&mut self, door: Door, report: &mut Lent, i: usize) -> ThreadAnswer {
        let mut answer = self.2.thread(door, report, i);
        let given = |words: &[u32], i: usize| {
            let stretch = parts(words).ok().and_then(|parts| parts.thread(i).ok());
            stretch.map(|(start, length)| ThreadAnswer { number: 0, start, length })
        };
        let words = report.lent();
        match (self.0, answer.number) {
            (Fault::StretchShort, 0) => answer.length -= 1,
            (Fault::StretchHead, 0) => (answer.start, answer.length) = (answer.start - 1, answer.length + 1),
            (Fault::NextThread, 0) => answer = given(words, i + 1).unwrap_or(answer),
            (Fault::SeventeenForSixteen, 16) => answer.number = 17,
            (Fault::SixteenForEmpty, 17) if number(words[0]) == 0 => answer.number = 16,
            (Fault::LastThread, 17) if number(words[0]) > 0 => {
                answer = given(words, number(words[0]) - 1).unwrap_or(answer);
            }
            (Fault::HalfNumber, 17) => answer = given(words, i & u32::MAX as usize).unwrap_or(answer),
            (Fault::WordsBehind, 16) => {
                let end = words.iter().position(|&word| kind(word) == END);
                answer = end.and_then(|end| given(&words[..end + 1], i)).unwrap_or(answer);
            }
            (Fault::LayoutUnread, 16) => {
                let at = words.iter().position(|&word| kind(word) == THREAD);
                if let Some(at) = at.filter(|&at| i == 0 && at + 1 < words.len()) {
                    answer = ThreadAnswer { number: 0, start: at + 1, length: 1 };
                }
            }
            (Fault::RefusedStretch, 16 | 17) => answer.start = 1,
            (fault, 0) => answer = voice_faults::altered_thread(fault, words, i, answer),
            (Fault::ApartMore, 16) => answer = voice_faults::one_apart_more(words, i).unwrap_or(answer),
            _ => {}
        }
        if (self.0, answer.number) == (Fault::ReportChanged, 0) {
            changed(report.lent_mut(), 1);
        }
        answer
    }

    fn text(&mut self, door: Door, log: &mut Lent<u8>, text: &mut Lent<u8>, out: &mut Lent, work: &mut Lent) -> TextAnswer {
        let (words, asked) = (bytes(log.lent()), text.len() >= TEXT);
        let given = text_faults::called(self.0, door, &mut self.2, &mut Buffers { log, text, out, work });
        let mut answer = match (given, &words) {
            (Some(answer), _) => answer,
            (None, Ok(words)) if asked => self.misread(Service::Text, &mut Lent::of(words), |services, words| {
                services.text(door, &mut Lent::of(&as_bytes(words.lent())), text, out, work)
            }),
            _ => self.2.text(door, log, text, out, work),
        };
        let TextAnswer { number, value, .. } = answer;
        self.buffers(Answer { number, value }, &mut Lent::new(), out, work);
        if self.0 == Fault::LogChanged {
            changed(log.lent_mut(), 1);
        }
        // The text of a refusal by the fault.
        if let (Ok(words), true) = (&words, asked) {
            let (number, value) = self.refusal(words, number, value);
            if !matches!(number, 0 | 13) {
                answer = text_faults::refuse(number, value, text);
            }
        }
        text_faults::altered(self.0, door, answer, &mut Buffers { log, text, out, work }, &mut self.3)
    }
}
