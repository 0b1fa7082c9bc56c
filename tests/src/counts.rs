//! How often everything was met, and the table that a run ends with.

use crate::beside::Tally;
use crate::reference::{Graph, MOST_BYTES, MOST_WITH_VOICES, TEXT, least};
use crate::shapes::BORDERS;
use crate::words::{FROM, HEAD, LARGEST_PAUSE, LONGEST_COUNTED, Link, MOST_VOICES, Noted, Said, TO, VOICES};
use crate::words::{episode, episodes, kind, number, pause, version, voices};
use std::collections::BTreeSet;

/// A list of things that are counted, each with its name in the table.
macro_rules! counted {
    ($(#[$note:meta])* $list:ident { $($item:ident = $name:literal,)* }) => {
        $(#[$note])*
        #[derive(Clone, Copy, Debug, PartialEq, Eq)]
        pub enum $list { $($item,)* }

        impl $list {
            pub const NAMES: &'static [&'static str] = &[$($name,)*];
        }
    };
}

counted! {
    Service {
        Read = "read",
        Links = "links",
        Report = "report",
        FairCopy = "fair_copy",
        TrimmedCopy = "trimmed_copy",
        Thread = "thread",
        Text = "text",
    }
}

counted! {
    /// The shapes of logs.
    Shape {
        Tiny = "tiny, 0 to 4 episodes",
        Sparse = "sparse",
        Dense = "dense",
        Layered = "layered",
        Crossings = "chains with crossings",
        Stem = "a stem that threads share",
        Wide = "wide, few links",
        Repeats = "repeats",
        Loops = "with loops",
        Full = "full size, 200 and 4,096",
        FullVoices = "full size with voices, 120 and 4,096",
        Ceilings = "around the ceilings",
        Damaged = "damaged",
        Scrap = "words at random",
    }
}

counted! {
    /// The sizes of logs that pass.
    Size { Few = "at most 12", Some = "13 to 24", More = "25 to 60", Many = "61 to 199", Most = "200", }
}

counted! {
    /// The pauses of logs that pass. A log can be of several of these.
    Pauses {
        Older = "none, as in older logs",
        Few = "at most 3 minutes",
        More = "more than 3 minutes",
        Longest = "one of 4,095 minutes",
        LeastFirst = "several on one link, the least first",
        LeastBetween = "several on one link, the least in the middle",
        LeastLast = "several on one link, the least last",
        LeastZero = "several on one link, the least 0",
        Back = "others on the link back",
        Falling = "numbers that fall where the later episodes rise",
    }
}

/// The versions that a head can have.
const VERSIONS: [&str; 16] = ["0", "1", "2", "3", "4", "5", "6", "7", "8", "9", "10", "11", "12", "13", "14", "15"];

counted! {
    /// The first words of logs.
    First {
        ManyZero = "version 0, more than 200 episodes",
        ManyOne = "version 1, more than 200 episodes",
        ManyOther = "version 2 to 15, more than 200 episodes",
        LowZero = "version 0, more than 200 episodes, but not by the low 16 bits",
        LowOne = "version 1, more than 200 episodes, but not by the low 16 bits",
        NoHead = "no head, with 2 to 15 in bits 24 to 27",
        Only = "version 2 to 15, no other word",
    }
}

/// The least pauses that are counted, those of `BORDERS`, in version 0 and in version 1.
const LEAST: [&str; 2 * BORDERS.len()] = [
    "0 minutes, version 0",
    "359 minutes, version 0",
    "360 minutes, version 0",
    "361 minutes, version 0",
    "400 minutes, version 0",
    "4,095 minutes, version 0",
    "0 minutes, version 1",
    "359 minutes, version 1",
    "360 minutes, version 1",
    "361 minutes, version 1",
    "400 minutes, version 1",
    "4,095 minutes, version 1",
];

counted! {
    /// What links with more than 360 minutes do in logs that pass. A log can be of several of these.
    Long {
        Kept = "version 0, links with more than 360 minutes",
        KeptLoop = "version 0, a loop that only such links close",
        None = "version 1, every link counts",
        Some = "version 1, some links count and some do not",
        All = "version 1, no link counts",
        Shortened = "version 1, a link with more than 360 minutes, then with fewer",
        Repeated = "version 1, a link with at most 360 minutes, then with more",
        Open = "version 1, a loop that only links that do not count close",
        Loop = "version 1, a loop of links that count beside links that do not",
        Round = "version 1, a link that stays, round which links lead that do not count",
    }
}

counted! {
    /// The links of logs that are counted. A log can be of several of these.
    Links {
        None = "none",
        Once = "as many as to words",
        Fewer = "fewer than to words",
        Behind = "a link again behind another link",
        Groups = "a link again in another group of its episode",
        Pauses = "a link again with another pause",
        Own = "of an episode to itself",
        Back = "a link and the link back",
        Loop = "a loop",
        Far32 = "to two episodes that are 32 apart",
        Far128 = "to two episodes that are 128 apart",
        From128 = "from two episodes that are 128 apart to the same one",
        Most = "4,096 different ones",
        Uncounted = "some that do not count",
    }
}

counted! {
    /// The voices of logs that pass. A log can be of several of these.
    Voiced {
        None = "no voices word",
        Ones = "voices words that all say 1",
        One = "a voices word that says 1 beside others",
        Duets = "duets",
        Doors = "doors",
        Both = "duets, doors and episodes with one voice",
        AllDuets = "all duets",
        AllDoors = "all doors",
        Falling = "voices words that do not rise",
        Single = "one voices word",
        VersionOne = "voices words in version 1",
        Most = "120 episodes and voices words",
        Loop = "a loop, and duets or doors",
        Between = "a door with a link to it and a link from it",
        Linked = "a duet linked to a duet",
        More = "an apart set with more members than the heaviest",
    }
}

counted! {
    /// What is refused at a voices word, or beside one.
    Voicing {
        Early = "4, a voices word behind a from word and a to word",
        Behind = "5, a to word behind voices words",
        Next = "6, a voices word behind a from word",
        Last = "9, the last word is a voices word",
        Seven = "7, at most 2 voices",
        SevenMany = "7, more than 2 voices",
        Nineteen = "19, 3 voices",
        NineteenMore = "19, more than 3 voices",
        NineteenLow = "19, at most 2 voices by the low 2 bits",
        NineteenAgain = "19, on an episode that has had a voices word",
        Twenty = "20, 121 episodes",
        TwentyMore = "20, more than 121 episodes",
        TwentySeven = "20, on an episode that is too high",
        TwentyNineteen = "20, more than 2 voices",
        TwentyOne = "21, other voices",
        TwentyOneSame = "21, the same voices",
        TwentyOneOnes = "21, behind a voices word that says 1",
    }
}

counted! {
    /// The words that question 7 refuses.
    Seventh {
        Voices = "a voices word",
        To = "a to word without a pause",
        ToPaused = "a to word with a pause",
        From = "a from word",
        FromLow = "a from word whose low 16 bits are below n",
    }
}

counted! {
    /// What is done to a log that passes.
    Damage {
        Kind = "a kind changed",
        NumberStep = "a number one up or down",
        Number = "another number",
        Word = "another word",
        Removed = "a word removed",
        Added = "a word added",
        Doubled = "a word doubled",
        Swapped = "two words swapped",
        Truncated = "cut off",
        Emptied = "no words left",
        Head = "the head changed",
        End = "the end changed",
        From = "a from word more",
        FirstFrom = "the first from word removed",
        Pause = "another pause",
        PausedOut = "a later episode too high, with a pause",
        FromBits = "bits 16 to 27 of a from word set",
        EndBits = "bits 16 to 27 of head or end set",
        VersionBit = "a bit of the version turned",
        Version = "another version",
        VersionMany = "another version, and more than 200 episodes",
        VersionKind = "another version, and another kind of the first word",
        VoicesAdded = "a voices word more behind the head",
        VoicesAgain = "a second voices word on an episode",
        VoicesMany = "a voices word with more than 2 voices",
        VoicesOut = "a voices word on an episode that is not there",
        VoicesLate = "a voices word behind the first from word",
        VoicesLast = "a voices word for the end",
        VoicesBefore = "a voices word for the first from word",
        VoicesHead = "a voices word, and 119 to 122 episodes",
    }
}

counted! {
    /// The words that a thread is asked of.
    Asked {
        Whole = "a report",
        Behind = "a report with words behind it",
        DamagedReport = "a damaged report",
        MadeUp = "a layout without a log",
        FewApart = "a layout without a log, fewer apart words than threads",
        DamagedLayout = "a damaged layout",
        OtherWords = "a log, a loop, a copy or any words",
    }
}

counted! {
    /// Lengths of the lent output, against the words needed.
    OutLength {
        Zero = "0",
        Shorter = "shorter",
        OneShort = "need - 1",
        Need = "need",
        OneMore = "need + 1",
        Longer = "longer",
        MuchLonger = "much longer",
    }
}

counted! {
    /// Lengths of the work buffer.
    WorkLength { Zero = "0", Shorter = "shorter", OneShort = "16,383", Need = "16,384", OneMore = "16,385", Longer = "longer", }
}

counted! {
    /// Lengths of the text buffer.
    TextLength {
        Zero = "0",
        Shorter = "shorter",
        OneShort = "42,639",
        Need = "42,640",
        OneMore = "42,641",
        Longer = "longer",
    }
}

counted! {
    /// How many bytes a text is asked of.
    ByteCount {
        None = "none",
        Whole = "a multiple of four below 33,252",
        OneMore = "one more than a multiple of four, below 33,252",
        TwoMore = "two more",
        ThreeMore = "three more",
        NearMost = "33,252 to 33,255",
        Most = "33,256",
        NearOver = "33,257 to 33,259",
        FourOver = "33,260",
        Over = "more",
    }
}

counted! {
    /// What text calls give.
    Told {
        Report = "a report with one member or more",
        NoApart = "a report with an empty apart set",
        Fewer = "a report with fewer members than threads",
        Loop = "a loop of two episodes or more",
        Own = "a loop of one episode",
        Refused = "a refusal of the words",
        ShortOut = "11, the output is too short",
        ShortWork = "12",
        Bytes = "14 or 15",
        BytesShort = "14 or 15, and output or work buffer is too short",
        Short = "11, the text buffer is too short",
        ShortBytes = "11, the text buffer is too short, for bytes that earn 14 or 15",
        ShortWords = "11, the text buffer is too short, for words that are refused",
        ShortOthers = "11, the text buffer is too short, and output or work buffer too",
    }
}

counted! {
    /// The lengths of texts.
    TextSize {
        Few = "at most 30 bytes",
        Some = "31 to 100 bytes",
        More = "101 to 1,000 bytes",
        Many = "1,001 to 2,000 bytes",
        Most = "more than 2,000 bytes",
    }
}

counted! {
    /// The figures of texts.
    Figures {
        One = "one digit",
        Two = "two digits",
        Three = "three digits",
        Four = "four digits",
        Five = "five digits",
        Ten = "10",
        NinetyNine = "99",
        Hundred = "100",
        Low = "more than 255",
    }
}

counted! {
    /// The properties across calls.
    Property {
        SameLinks = "same links and least pauses, other order and repeats",
        ReadBack = "copy read back",
        CopyOfCopy = "copy of a copy",
        Counted = "links counted, of log, copy and log with the same links",
        OtherPauses = "same links that count, other pauses",
        LinkMore = "a link more that counts",
        LongMore = "a link more that does not count",
        EpisodeMore = "an episode more",
        OtherPause = "another least pause, and the same links count",
        OverBorder = "another least pause, and a link more or fewer counts",
        OwnThreads = "threads of its own report",
        SameOutcome = "same outcome of report and trimmed copy",
        Damaged = "same outcome, a damaged log",
        TrimmedOfCopies = "trimmed copy of copies",
        TrimmedRead = "trimmed copy read, counted and reported on",
        SameWays = "same ways, other links",
        WayMore = "a way more",
        WayFewer = "a way fewer",
        TrimmedEpisode = "an episode more, trimmed",
        TrimmedVersions = "same ways, another version",
        BothVersions = "one log in both versions",
        Wider = "one log in both versions, wider in version 1",
        LoopGone = "one log in both versions, a loop in version 0 alone",
        ShortPauses = "one log in both versions, no pause above 360",
        CountedAlone = "a log of version 1, and its links that count alone",
        ZeroPauses = "version 0, other pauses and repeats",
        VoicesOrder = "voices words in another order",
        SaidOnes = "with voices words that say 1, and without",
        Doors = "all doors, without a loop",
        DoorsLoop = "all doors, with a loop",
        AllDuets = "all duets, and one voice each",
        VoiceMore = "one voice more",
        VoiceFewer = "one voice fewer",
        WidthOne = "one voice more or fewer, and another width",
        AsItems = "an episode for each voice and a link for each way",
        AsReport = "a text call, and a report call on the same buffers",
        OwnReport = "text of a report, and what other services give",
        OwnLoop = "text of a loop, and what other services give",
        OwnRefusal = "text of a refusal, and what other services give",
        SameText = "same links and least pauses, text",
        TextDoors = "text through both doors",
    }
}

impl Pauses {
    /// Those that a log with these links has.
    pub fn met(noted: &[Noted]) -> Vec<Pauses> {
        let mut met = Vec::new();
        let mut meet = |pauses, holds: bool| {
            if holds && !met.contains(&pauses) {
                met.push(pauses);
            }
        };
        let longest = noted.iter().map(|link| link.2).max();
        meet(Pauses::Older, longest == Some(0));
        meet(Pauses::Few, longest.is_some_and(|pause| (1..=3).contains(&pause)));
        meet(Pauses::More, longest.is_some_and(|pause| pause > 3));
        meet(Pauses::Longest, longest == Some(LARGEST_PAUSE));
        // The repeats of a link side by side, in the order of the log; and each link with its least pause.
        let mut sorted = noted.to_vec();
        sorted.sort_by_key(|link| (link.0, link.1));
        let mut once: Vec<Noted> = Vec::new();
        for repeats in sorted.chunk_by(|one, next| (one.0, one.1) == (next.0, next.1)) {
            let least = repeats.iter().map(|link| link.2).min().unwrap_or(0);
            once.push((repeats[0].0, repeats[0].1, least));
            let mut places = (0..repeats.len()).filter(|&place| repeats[place].2 == least);
            if let (3.., Some(place), None) = (repeats.len(), places.next(), places.next()) {
                meet(Pauses::LeastFirst, place == 0);
                meet(Pauses::LeastBetween, place > 0 && place + 1 < repeats.len());
                meet(Pauses::LeastLast, place + 1 == repeats.len());
                meet(Pauses::LeastZero, least == 0);
            }
        }
        let back = |&(from, to, least): &Noted| {
            let place = once.binary_search_by_key(&(to, from), |link| (link.0, link.1));
            place.is_ok_and(|place| once[place].2 != least)
        };
        meet(Pauses::Back, once.iter().any(back));
        meet(Pauses::Falling, once.windows(2).any(|two| two[0].0 == two[1].0 && two[0].2 > two[1].2));
        met
    }
}

impl Voiced {
    /// Those of a log of this version that passes, which has a loop or not. `more` is asked whether an apart set has more members
    /// than the heaviest.
    pub fn met(version: usize, said: &[Said], graph: &Graph, has_loop: bool, more: impl FnOnce() -> bool) -> Vec<Voiced> {
        if said.is_empty() {
            return vec![Voiced::None];
        }
        let says = |voices: usize| said.iter().any(|said| said.1 == voices);
        let all = |voices: usize| graph.voices.iter().all(|&own| own == voices);
        let linked = |one: usize, two: usize| graph.voices[one] == 2 && graph.voices[two] == 2 && one != two;
        let to = |v: usize| graph.next.iter().any(|next| next.contains(&v));
        let ones = !says(0) && !says(2);
        let met = [
            (Voiced::Ones, ones),
            (Voiced::One, says(1) && !ones),
            (Voiced::Duets, says(2)),
            (Voiced::Doors, says(0)),
            (Voiced::Both, says(0) && says(2) && graph.voices.contains(&1)),
            (Voiced::AllDuets, all(2)),
            (Voiced::AllDoors, all(0)),
            (Voiced::Falling, !said.is_sorted()),
            (Voiced::Single, said.len() == 1),
            (Voiced::VersionOne, version == 1),
            (Voiced::Most, graph.n == MOST_WITH_VOICES),
            (Voiced::Loop, has_loop && !ones),
            (Voiced::Between, (0..graph.n).any(|v| graph.voices[v] == 0 && !graph.next[v].is_empty() && to(v))),
            (Voiced::Linked, graph.links.iter().any(|&(from, to)| linked(from, to))),
            (Voiced::More, !ones && more()),
        ];
        met.into_iter().filter(|met| met.1).map(|met| met.0).collect()
    }
}

impl Voicing {
    /// Those of a log that is refused by this number at this place.
    fn met(log: &[u32], number: u32, place: usize) -> Vec<Voicing> {
        let given = log.get(place).copied().unwrap_or(0);
        let is_voices = kind(given) == VOICES;
        let n = log.first().map_or(0, |&head| episodes(head));
        let before =
            log.get(1..place).unwrap_or(&[]).iter().find(|&&word| kind(word) == VOICES && episode(word) == episode(given));
        let (count, many) = (voices(given), voices(given) > MOST_VOICES);
        let met = match number {
            4 => vec![(Voicing::Early, is_voices && log[..place].iter().any(|&word| kind(word) == FROM))],
            5 => vec![(Voicing::Behind, place > 1 && kind(log[place - 1]) == VOICES)],
            6 => vec![(Voicing::Next, place + 2 < log.len() && kind(log[place + 1]) == VOICES)],
            7 => vec![(Voicing::Seven, is_voices && !many), (Voicing::SevenMany, is_voices && many)],
            9 => vec![(Voicing::Last, is_voices)],
            19 => vec![
                (Voicing::Nineteen, count == 3),
                (Voicing::NineteenMore, count > 3),
                (Voicing::NineteenLow, count % 4 <= MOST_VOICES),
                (Voicing::NineteenAgain, before.is_some()),
            ],
            20 => vec![
                (Voicing::Twenty, n == 121),
                (Voicing::TwentyMore, n > 121),
                (Voicing::TwentySeven, episode(given) >= n),
                (Voicing::TwentyNineteen, many),
            ],
            21 => vec![
                (Voicing::TwentyOne, before != Some(&given)),
                (Voicing::TwentyOneSame, before == Some(&given)),
                (Voicing::TwentyOneOnes, before.is_some_and(|&word| voices(word) == 1)),
            ],
            _ => Vec::new(),
        };
        met.into_iter().filter(|met| met.1).map(|met| met.0).collect()
    }
}

impl TextLength {
    /// That of a text buffer of so many bytes.
    pub fn met(bytes: usize) -> TextLength {
        match bytes {
            0 => TextLength::Zero,
            TEXT => TextLength::Need,
            _ if bytes + 1 == TEXT => TextLength::OneShort,
            _ if bytes == TEXT + 1 => TextLength::OneMore,
            _ if bytes < TEXT => TextLength::Shorter,
            _ => TextLength::Longer,
        }
    }
}

impl ByteCount {
    fn met(bytes: usize) -> ByteCount {
        match bytes {
            0 => ByteCount::None,
            _ if bytes + 4 < MOST_BYTES => {
                [ByteCount::Whole, ByteCount::OneMore, ByteCount::TwoMore, ByteCount::ThreeMore][bytes % 4]
            }
            _ if bytes < MOST_BYTES => ByteCount::NearMost,
            MOST_BYTES => ByteCount::Most,
            _ if bytes < MOST_BYTES + 4 => ByteCount::NearOver,
            _ if bytes == MOST_BYTES + 4 => ByteCount::FourOver,
            _ => ByteCount::Over,
        }
    }
}

impl TextSize {
    fn met(bytes: usize) -> TextSize {
        match bytes {
            0..=30 => TextSize::Few,
            31..=100 => TextSize::Some,
            101..=1_000 => TextSize::More,
            1_001..=2_000 => TextSize::Many,
            _ => TextSize::Most,
        }
    }
}

impl Figures {
    /// Those of a text.
    fn met(text: &str) -> Vec<Figures> {
        let figures: BTreeSet<usize> = text.split([' ', '\n']).filter_map(|figure| figure.parse().ok()).collect();
        let digits = |count: usize| figures.iter().any(|figure| figure.to_string().len() == count);
        let met = [
            (Figures::One, digits(1)),
            (Figures::Two, digits(2)),
            (Figures::Three, digits(3)),
            (Figures::Four, digits(4)),
            (Figures::Five, digits(5)),
            (Figures::Ten, figures.contains(&10)),
            (Figures::NinetyNine, figures.contains(&99)),
            (Figures::Hundred, figures.contains(&100)),
            (Figures::Low, figures.iter().any(|&figure| figure > 255)),
        ];
        met.into_iter().filter(|met| met.1).map(|met| met.0).collect()
    }
}

impl First {
    /// Those of a log of two words or more, with a head of this version that gives n episodes.
    fn met(version: usize, n: usize) -> Vec<First> {
        let low = n % 65_536 <= 200;
        match (version, n) {
            (_, 0..=200) => Vec::new(),
            (0, _) if low => vec![First::ManyZero, First::LowZero],
            (0, _) => vec![First::ManyZero],
            (1, _) if low => vec![First::ManyOne, First::LowOne],
            (1, _) => vec![First::ManyOne],
            _ => vec![First::ManyOther],
        }
    }
}

/// The least pauses of a log that passes, by their rows, and what its long pauses do.
pub struct LongPauses {
    least: Vec<usize>,
    long: Vec<Long>,
}

impl LongPauses {
    /// Those of a log of this version, in which all links, and the links that count, have a loop or none. `round` is asked
    /// whether links that do not count lead round one that stays.
    pub fn of(version: usize, n: usize, noted: &[Noted], loops: (bool, bool), round: impl FnOnce() -> bool) -> LongPauses {
        let once = least(noted);
        let borders = (0..BORDERS.len()).filter(|&border| once.iter().any(|link| link.2 == BORDERS[border]));
        let borders = borders.map(|border| version * BORDERS.len() + border).collect();
        let is_long = |link: &Noted| link.2 > LONGEST_COUNTED;
        let short: Vec<Link> = once.iter().filter(|link| !is_long(link)).map(|&(from, to, _)| (from, to)).collect();
        let (some, all) = (short.len() < once.len(), short.is_empty() && !once.is_empty());
        let mut sorted = noted.to_vec();
        sorted.sort_by_key(|link| (link.0, link.1));
        let then = |first: bool| {
            let again = |two: &[Noted]| (two[0].0, two[0].1) == (two[1].0, two[1].1);
            sorted.windows(2).any(|two| again(two) && is_long(&two[0]) == first && is_long(&two[1]) != first)
        };
        let (all_loop, has_loop) = loops;
        let met = match version {
            0 => vec![(Long::Kept, some), (Long::KeptLoop, some && has_loop && !Graph::new(vec![1; n], short).has_loop())],
            _ => vec![
                (Long::None, !once.is_empty() && !some),
                (Long::Some, some && !all),
                (Long::All, all),
                (Long::Shortened, then(true)),
                (Long::Repeated, then(false)),
                (Long::Open, all_loop && !has_loop),
                (Long::Loop, some && has_loop),
                (Long::Round, some && !all && !has_loop && round()),
            ],
        };
        LongPauses { least: borders, long: met.into_iter().filter(|met| met.1).map(|met| met.0).collect() }
    }
}

impl Links {
    /// Those of a log that passes: its links that count, which have a loop or none.
    pub fn met(log: &[u32], graph: &Graph, has_loop: bool) -> Vec<Links> {
        // Each to word with its two episodes, its group, its pause and its own number, the repeats of a link side by side.
        let (mut from, mut group, mut all) = (0, 0, Vec::new());
        for &given in &log[1..log.len() - 1] {
            match kind(given) {
                TO => all.push(((from, episode(given)), group, pause(given), all.len())),
                VOICES => {}
                _ => (from, group) = (number(given), group + 1),
            }
        }
        let once: BTreeSet<Link> = graph.links.iter().copied().collect();
        let given = all.len();
        all.retain(|to| once.contains(&to.0));
        all.sort_by_key(|to| to.0);
        let any = |holds: &dyn Fn(Link) -> bool| once.iter().any(|&link| holds(link));
        let again =
            |holds: fn(&GivenTo, &GivenTo) -> bool| all.windows(2).any(|two| two[0].0 == two[1].0 && holds(&two[0], &two[1]));
        let met = [
            (Links::None, once.is_empty()),
            (Links::Once, !once.is_empty() && once.len() == all.len()),
            (Links::Fewer, once.len() < all.len()),
            (Links::Behind, again(|one, next| one.3 + 1 < next.3)),
            (Links::Groups, again(|one, next| one.1 != next.1)),
            (Links::Pauses, again(|one, next| one.2 != next.2)),
            (Links::Own, any(&|(from, to)| from == to)),
            (Links::Back, any(&|(from, to)| from < to && once.contains(&(to, from)))),
            (Links::Loop, has_loop),
            (Links::Far32, any(&|(from, to)| once.contains(&(from, to + 32)))),
            (Links::Far128, any(&|(from, to)| once.contains(&(from, to + 128)))),
            (Links::From128, any(&|(from, to)| once.contains(&(from + 128, to)))),
            (Links::Most, once.len() == 4_096),
            (Links::Uncounted, all.len() < given),
        ];
        met.into_iter().filter(|met| met.1).map(|met| met.0).collect()
    }
}

/// A to word as a log gives it: its link, its group, its pause, and how many to words stand before it.
type GivenTo = (Link, usize, usize, usize);

const SERVICES: usize = Service::NAMES.len();

/// One more than the largest refusal number.
const NUMBERS: usize = 22;

/// The answers that each service can give, all of which have to be met.
const MUST: [&[usize]; SERVICES] = [
    &[0, 1, 2, 3, 4, 5, 6, 7, 8, 9, 10, 18, 19, 20, 21],
    &[0, 1, 2, 3, 4, 5, 6, 7, 8, 9, 10, 18, 19, 20, 21],
    &[0, 1, 2, 3, 4, 5, 6, 7, 8, 9, 10, 11, 12, 13, 18, 19, 20, 21],
    &[0, 1, 2, 3, 4, 5, 6, 7, 8, 9, 10, 11, 12, 18, 19, 20, 21],
    &[0, 1, 2, 3, 4, 5, 6, 7, 8, 9, 10, 11, 12, 13, 18, 19, 20, 21],
    &[0, 16, 17],
    &[0, 1, 2, 3, 4, 5, 6, 7, 8, 9, 10, 11, 12, 13, 14, 15, 18, 19, 20, 21],
];

#[derive(Clone)]
pub struct Counts {
    pub calls: u64,
    pub rounds: u64,
    numbers: [[u64; NUMBERS]; SERVICES],
    lists: [(&'static str, &'static [&'static str], Vec<u64>); 25],
    /// The calls that were compared with an older build.
    pub beside: Tally,
}

impl Counts {
    pub fn new() -> Counts {
        let list = |title, names: &'static [&'static str]| (title, names, vec![0; names.len()]);
        Counts {
            calls: 0,
            rounds: 0,
            numbers: [[0; NUMBERS]; SERVICES],
            lists: [
                list("calls by shape of log", Shape::NAMES),
                list("calls by size of a log that passes", Size::NAMES),
                list("damage done", Damage::NAMES),
                list("thread calls by words", Asked::NAMES),
                list("calls by output length", OutLength::NAMES),
                list("calls by work length", WorkLength::NAMES),
                list("properties", Property::NAMES),
                list("calls by interface", &["Rust wrapper", "C header"]),
                list("calls by shape of log, with a pause", Shape::NAMES),
                list("calls by pauses of a log that passes", Pauses::NAMES),
                list("calls refused by question 7, by its word", Seventh::NAMES),
                list("link counts given, by links of the log", Links::NAMES),
                list("calls by version in the head", &VERSIONS),
                list("calls by first word", First::NAMES),
                list("calls by shape of log, in version 1", Shape::NAMES),
                list("calls by a least pause of a log that passes", &LEAST),
                list("calls by long pauses of a log that passes", Long::NAMES),
                list("calls by shape of log, with a voices word", Shape::NAMES),
                list("calls by voices of a log that passes", Voiced::NAMES),
                list("calls refused at a voices word or beside one", Voicing::NAMES),
                list("text calls by text length", TextLength::NAMES),
                list("text calls by byte count", ByteCount::NAMES),
                list("text calls by what they give", Told::NAMES),
                list("texts by length", TextSize::NAMES),
                list("texts by their figures", Figures::NAMES),
            ],
            beside: Tally::default(),
        }
    }

    pub fn call(&mut self, service: Service, number: u32) {
        self.calls += 1;
        if let Some(count) = self.numbers[service as usize].get_mut(number as usize) {
            *count += 1;
        }
    }

    /// A call on a log of that shape.
    pub fn shape(&mut self, shape: Shape, log: &[u32]) {
        let paused = log.iter().any(|&given| kind(given) == TO && pause(given) > 0);
        let one = log.first().is_some_and(|&head| kind(head) == HEAD && version(head) == 1);
        self.lists[0].2[shape as usize] += 1;
        self.lists[8].2[shape as usize] += u64::from(paused);
        self.lists[14].2[shape as usize] += u64::from(one);
        self.lists[17].2[shape as usize] += u64::from(log.iter().any(|&given| kind(given) == VOICES));
    }

    /// A call on a log: its first word.
    pub fn first(&mut self, log: &[u32]) {
        let Some(&head) = log.first() else { return };
        let version = version(head);
        let met = match (kind(head), log.len()) {
            (HEAD, 1) if version > 1 => vec![First::Only],
            (HEAD, 2..) => First::met(version, episodes(head)),
            (_, 2..) if version > 1 => vec![First::NoHead],
            _ => Vec::new(),
        };
        for first in met {
            self.lists[13].2[first as usize] += 1;
        }
        if kind(head) == HEAD {
            self.lists[12].2[version] += 1;
        }
    }

    pub fn size(&mut self, n: usize) {
        let size = match n {
            0..=12 => Size::Few,
            13..=24 => Size::Some,
            25..=60 => Size::More,
            61..=199 => Size::Many,
            _ => Size::Most,
        };
        self.lists[1].2[size as usize] += 1;
    }

    pub fn damage(&mut self, damage: Damage) {
        self.lists[2].2[damage as usize] += 1;
    }

    pub fn asked(&mut self, asked: Asked) {
        self.lists[3].2[asked as usize] += 1;
    }

    pub fn lengths(&mut self, out: OutLength, work: WorkLength) {
        self.lists[4].2[out as usize] += 1;
        self.lists[5].2[work as usize] += 1;
    }

    pub fn property(&mut self, property: Property) {
        self.lists[6].2[property as usize] += 1;
    }

    pub fn interface(&mut self, c: bool) {
        self.lists[7].2[usize::from(c)] += 1;
    }

    pub fn pauses(&mut self, pauses: Pauses) {
        self.lists[9].2[pauses as usize] += 1;
    }

    pub fn links(&mut self, links: Links) {
        self.lists[11].2[links as usize] += 1;
    }

    /// A call on a log with these pauses.
    pub fn long_pauses(&mut self, long_pauses: &LongPauses) {
        for &least in &long_pauses.least {
            self.lists[15].2[least] += 1;
        }
        for &long in &long_pauses.long {
            self.lists[16].2[long as usize] += 1;
        }
    }

    pub fn voiced(&mut self, voiced: Voiced) {
        self.lists[18].2[voiced as usize] += 1;
    }

    /// A text call on so many bytes, with a text buffer of this kind.
    pub fn text_lengths(&mut self, bytes: usize, text: TextLength) {
        self.lists[20].2[text as usize] += 1;
        self.lists[21].2[ByteCount::met(bytes) as usize] += 1;
    }

    /// What a text call gave.
    pub fn told(&mut self, told: Told) {
        self.lists[22].2[told as usize] += 1;
    }

    /// A text that was given.
    pub fn printed(&mut self, text: &str) {
        self.lists[23].2[TextSize::met(text.len()) as usize] += 1;
        for figures in Figures::met(text) {
            self.lists[24].2[figures as usize] += 1;
        }
    }

    /// A log is refused.
    pub fn refused(&mut self, log: &[u32], number: u32, place: usize) {
        if number == 7 {
            self.seventh(log, place);
        }
        for voicing in Voicing::met(log, number, place) {
            self.lists[19].2[voicing as usize] += 1;
        }
    }

    /// Question 7 refuses the word at `place`.
    fn seventh(&mut self, log: &[u32], place: usize) {
        let given = log[place];
        let seventh = match kind(given) {
            VOICES => Seventh::Voices,
            TO if pause(given) > 0 => Seventh::ToPaused,
            TO => Seventh::To,
            _ if episode(given) < episodes(log[0]) => Seventh::FromLow,
            _ => Seventh::From,
        };
        self.lists[10].2[seventh as usize] += 1;
    }

    /// An older build gave and left the same in a call on these words.
    pub fn compared(&mut self, service: Service, number: u32, words: &[u32]) {
        self.beside.call(service, number, words, self.rounds);
    }

    pub fn add(&mut self, other: &Counts) {
        self.calls += other.calls;
        self.rounds += other.rounds;
        for (mine, theirs) in self.numbers.iter_mut().flatten().zip(other.numbers.iter().flatten()) {
            *mine += theirs;
        }
        for (mine, theirs) in self.lists.iter_mut().zip(&other.lists) {
            for (mine, theirs) in mine.2.iter_mut().zip(&theirs.2) {
                *mine += theirs;
            }
        }
        self.beside.add(&other.beside);
    }

    /// What was met fewer than `floor` times.
    pub fn missing(&self, floor: u64) -> Vec<String> {
        let mut missing = Vec::new();
        for (service, must) in MUST.iter().enumerate() {
            for &number in must.iter().filter(|&&number| self.numbers[service][number] < floor) {
                missing.push(format!("{} with number {number}: {}", Service::NAMES[service], self.numbers[service][number]));
            }
        }
        for (title, names, counts) in &self.lists {
            for (name, count) in names.iter().zip(counts).filter(|(_, count)| **count < floor) {
                missing.push(format!("{title}, {name}: {count}"));
            }
        }
        missing
    }

    pub fn print(&self) {
        println!("answers by service; 0 is no refusal");
        row("number", &|service| Service::NAMES[service].into());
        for number in (0..NUMBERS).filter(|number| MUST.iter().any(|must| must.contains(number))) {
            row(&number.to_string(), &|service| {
                let count = self.numbers[service][number];
                if count == 0 && !MUST[service].contains(&number) { "-".into() } else { grouped(count) }
            });
        }
        row("all", &|service| grouped(self.numbers[service].iter().sum()));
        for (title, names, counts) in &self.lists {
            println!("{title}");
            for (name, count) in names.iter().zip(counts) {
                println!("{:>12}  {name}", grouped(*count));
            }
        }
    }
}

/// A row of a table that has a column for each service.
pub fn row(name: &str, cell: &dyn Fn(usize) -> String) {
    let cells: String = (0..SERVICES).map(|service| format!(" {:>12}", cell(service))).collect();
    println!("{name:>8}{cells}");
}

/// A count with a comma before every three figures.
pub fn grouped(count: u64) -> String {
    let figures = count.to_string();
    let mut text = String::new();
    for (i, figure) in figures.chars().enumerate() {
        if i > 0 && (figures.len() - i).is_multiple_of(3) {
            text.push(',');
        }
        text.push(figure);
    }
    text
}
