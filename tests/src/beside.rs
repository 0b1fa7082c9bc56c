//! The services beside those of an older build: both make each call, and every word that they give and leave is compared.

use crate::counts::{Service, grouped, row};
use crate::lent::{Lent, Unit, WATCHED};
use crate::model;
use crate::object::Object;
use crate::reference::{bytes, parts};
use crate::services::header::{self, Counting, Lending, Reading, Texting, Threading};
use crate::services::{Answer, Compared, Door, ReadAnswer, Services, TextAnswer, ThreadAnswer, lending, texting};
use crate::words::{END, HEAD, VOICES, head_word, kind, version, voices_word, word};
use std::collections::HashSet;
use std::fmt::Debug;
use std::hash::{DefaultHasher, Hash, Hasher};

/// The functions of an older build.
#[derive(Clone, Copy)]
pub struct Older {
    read: Reading,
    /// None in builds of versions that had no link count.
    links: Option<Counting>,
    report: Lending,
    fair_copy: Lending,
    trimmed_copy: Lending,
    thread: Threading,
    /// None in builds of versions that had no text.
    text: Option<Texting>,
    /// Whether heads have a version there.
    versions: bool,
    /// Whether logs have voices words there.
    voices: bool,
}

/// The number that a build's reading gives for these words.
fn number_of(read: Reading, log: &[u32]) -> u32 {
    // SAFETY: the pointer and the length are those of a slice.
    unsafe { read(log.as_ptr(), log.len()) }.number
}

/// Whether a build reads the version in a head: it refuses version 2 by question 18.
fn has_versions(read: Reading) -> bool {
    number_of(read, &[head_word(2, 0), word(END, 0)]) == 18
}

/// Whether a build reads voices words: it does not refuse one.
fn has_voices(read: Reading) -> bool {
    number_of(read, &[head_word(0, 1), voices_word(0, 2), word(END, 0)]) == 0
}

impl Older {
    /// Those of the shared object at `path`.
    pub fn open(path: &str) -> Result<Older, String> {
        let object = Object::open(path)?;
        // SAFETY: these are the types that the header gives the seven functions.
        unsafe {
            let read = object.function(c"zohapy_read")?;
            Ok(Older {
                read,
                links: object.function(c"zohapy_links").ok(),
                report: object.function(c"zohapy_report")?,
                fair_copy: object.function(c"zohapy_fair_copy")?,
                trimmed_copy: object.function(c"zohapy_trimmed_copy")?,
                thread: object.function(c"zohapy_thread")?,
                text: object.function(c"zohapy_text").ok(),
                versions: has_versions(read),
                voices: has_voices(read),
            })
        }
    }

    /// Those of the library that is linked. Beside them only a fault is another build.
    pub fn linked() -> Older {
        Older {
            read: header::zohapy_read,
            links: Some(header::zohapy_links),
            report: header::zohapy_report,
            fair_copy: header::zohapy_fair_copy,
            trimmed_copy: header::zohapy_trimmed_copy,
            thread: header::zohapy_thread,
            text: Some(header::zohapy_text),
            versions: has_versions(header::zohapy_read),
            voices: has_voices(header::zohapy_read),
        }
    }

    /// Those of the model.
    pub fn model() -> Older {
        Older {
            read: model::header::read,
            links: Some(model::header::links),
            report: model::header::report,
            fair_copy: model::header::fair_copy,
            trimmed_copy: model::header::trimmed_copy,
            thread: model::header::thread,
            text: Some(model::header::text),
            versions: true,
            voices: true,
        }
    }

    /// Whether the build has the link count. Where it has none, these calls are not compared.
    pub fn counts_links(&self) -> bool {
        self.links.is_some()
    }

    /// Whether the build has the text. Where it has none, these calls are not compared.
    pub fn prints(&self) -> bool {
        self.text.is_some()
    }

    /// Whether the build has versions. Where it has none, calls on logs of another version than 0 are not compared.
    pub fn has_versions(&self) -> bool {
        self.versions
    }

    /// Whether the build has voices. Where it has none, calls on logs with a voices word behind the head are not compared, and
    /// none on reports with fewer apart words than threads.
    pub fn has_voices(&self) -> bool {
        self.voices
    }

    /// Whether the log means the same to the build: questions 1 and 2 refuse it; or the build has versions too, or it is of version
    /// 0, and the build has voices too, or there is none behind the head. A voices word behind any other word is refused anyway.
    fn reads_as_now(&self, log: &[u32]) -> bool {
        let refused = log.len() < 2 || kind(log[0]) != HEAD;
        refused || ((self.versions || version(log[0]) == 0) && (self.voices || log.len() == 2 || kind(log[1]) != VOICES))
    }

    /// The build's text service, where it has one to which the bytes mean the same.
    fn texting(&self, log: &[u8]) -> Option<Texting> {
        self.text.filter(|_| bytes(log).map_or(true, |words| self.reads_as_now(&words)))
    }

    /// Whether the words are a report to the build where they are one now.
    fn takes_report(&self, words: &[u32]) -> bool {
        self.voices || parts(words).map_or(true, |parts| parts.apart == parts.count())
    }
}

/// A lent buffer as it was before the call, with the watched words or bytes around it: for the older build.
#[derive(Default)]
struct Kept<T = u32>(Vec<T>);

impl<T: Unit> Kept<T> {
    fn keep(&mut self, buffer: &Lent<T>) {
        self.0.clear();
        self.0.extend_from_slice(buffer.with_outside());
    }

    fn lent(&mut self) -> &mut [T] {
        let end = self.0.len() - WATCHED;
        &mut self.0[WATCHED..end]
    }
}

/// The newer services, with an older build beside them.
pub struct Beside<S> {
    newer: S,
    older: Older,
    log: Kept,
    out: Kept,
    work: Kept,
    bytes: Kept<u8>,
    text: Kept<u8>,
    compared: Compared,
}

/// A service of the newer build that writes to a lent output.
type Newer<S> = fn(&mut S, Door, &mut Lent, &mut Lent, &mut Lent) -> Answer;

impl<S: Services> Beside<S> {
    pub fn new(newer: S, older: Older) -> Beside<S> {
        let (log, out, work) = (Kept::default(), Kept::default(), Kept::default());
        let (bytes, text) = (Kept::default(), Kept::default());
        Beside { newer, older, log, out, work, bytes, text, compared: Compared::Not }
    }

    fn lending(
        &mut self,
        (newer, older): (Newer<S>, Lending),
        door: Door,
        log: &mut Lent,
        out: &mut Lent,
        work: &mut Lent,
    ) -> Answer {
        if !self.older.reads_as_now(log.lent()) {
            self.compared = Compared::Not;
            return newer(&mut self.newer, door, log, out, work);
        }
        self.log.keep(log);
        self.out.keep(out);
        self.work.keep(work);
        let new = newer(&mut self.newer, door, log, out, work);
        let old = lending(older, self.log.lent(), self.out.lent(), self.work.lent());
        let buffers = [("log", &*log, &self.log), ("output", &*out, &self.out), ("work buffer", &*work, &self.work)];
        self.compared = compare(new, old, &buffers);
        new
    }
}

impl<S: Services> Services for Beside<S> {
    fn read(&mut self, door: Door, log: &mut Lent) -> ReadAnswer {
        if !self.older.reads_as_now(log.lent()) {
            self.compared = Compared::Not;
            return self.newer.read(door, log);
        }
        self.log.keep(log);
        let new = self.newer.read(door, log);
        let kept = self.log.lent();
        // SAFETY: the pointer and the length are those of a slice.
        let old = unsafe { (self.older.read)(kept.as_ptr(), kept.len()) };
        self.compared = compare(new, old, &[("log", log, &self.log)]);
        new
    }

    fn links(&mut self, door: Door, log: &mut Lent) -> Answer {
        let links = self.older.links.filter(|_| self.older.reads_as_now(log.lent()));
        self.log.keep(log);
        let new = self.newer.links(door, log);
        self.compared = match links {
            Some(links) => {
                let kept = self.log.lent();
                // SAFETY: the pointer and the length are those of a slice.
                let old = unsafe { links(kept.as_ptr(), kept.len()) };
                compare(new, old, &[("log", log, &self.log)])
            }
            None => Compared::Not,
        };
        new
    }

    fn report(&mut self, door: Door, log: &mut Lent, out: &mut Lent, work: &mut Lent) -> Answer {
        self.lending((S::report, self.older.report), door, log, out, work)
    }

    fn fair_copy(&mut self, door: Door, log: &mut Lent, out: &mut Lent, work: &mut Lent) -> Answer {
        self.lending((S::fair_copy, self.older.fair_copy), door, log, out, work)
    }

    fn trimmed_copy(&mut self, door: Door, log: &mut Lent, out: &mut Lent, work: &mut Lent) -> Answer {
        self.lending((S::trimmed_copy, self.older.trimmed_copy), door, log, out, work)
    }

    fn thread(&mut self, door: Door, report: &mut Lent, i: usize) -> ThreadAnswer {
        self.log.keep(report);
        let new = self.newer.thread(door, report, i);
        if !self.older.takes_report(report.before()) {
            self.compared = Compared::Not;
            return new;
        }
        let kept = self.log.lent();
        // SAFETY: the pointer and the length are those of a slice.
        let old = unsafe { (self.older.thread)(kept.as_ptr(), kept.len(), i) };
        self.compared = compare(new, old, &[("report", report, &self.log)]);
        new
    }

    fn text(&mut self, door: Door, log: &mut Lent<u8>, text: &mut Lent<u8>, out: &mut Lent, work: &mut Lent) -> TextAnswer {
        let older = self.older.texting(log.lent());
        self.bytes.keep(log);
        self.text.keep(text);
        self.out.keep(out);
        self.work.keep(work);
        let new = self.newer.text(door, log, text, out, work);
        self.compared = match older {
            Some(older) => {
                let old = texting(older, self.bytes.lent(), self.text.lent(), self.out.lent(), self.work.lent());
                let byte = differing(&[("log", &*log, &self.bytes), ("text buffer", &*text, &self.text)]);
                let word = differing(&[("output", &*out, &self.out), ("work buffer", &*work, &self.work)]);
                told(new, old, byte.or(word))
            }
            None => Compared::Not,
        };
        new
    }

    fn compared(&mut self) -> Compared {
        std::mem::take(&mut self.compared)
    }
}

/// Compares the answers, and each buffer of the newer call with that of the older.
fn compare<A: Debug + PartialEq>(new: A, old: A, buffers: &[(&str, &Lent, &Kept)]) -> Compared {
    told(new, old, differing(buffers))
}

/// The first difference in buffers of one kind.
fn differing<T: Unit>(buffers: &[(&str, &Lent<T>, &Kept<T>)]) -> Option<String> {
    buffers.iter().find_map(|(name, new, old)| first_difference(name, new.with_outside(), &old.0))
}

/// What is told of two answers, and of buffers that differ or not.
fn told<A: Debug + PartialEq>(new: A, old: A, word: Option<String>) -> Compared {
    if new == old && word.is_none() {
        return Compared::Same;
    }
    let word = word.unwrap_or("the buffers do not differ".into());
    Compared::Other(format!("the answer is {new:?}, that of the older build {old:?}; {word}"))
}

/// The first word or byte that differs. Both slices begin and end with watched ones.
fn first_difference<T: Unit>(name: &str, new: &[T], old: &[T]) -> Option<String> {
    if new == old {
        return None;
    }
    let place = new.iter().zip(old).position(|(new, old)| new != old)?;
    let end = new.len() - WATCHED;
    let word = if place < WATCHED {
        format!("{} {} in front of the {name}", T::NAME, WATCHED - place)
    } else if place < end {
        format!("{} {} of the {name}", T::NAME, place - WATCHED)
    } else {
        format!("{} {} behind the {name}", T::NAME, place - end + 1)
    };
    let digits = 2 * size_of::<T>();
    Some(format!("{word} is {:0digits$X}, that of the older build {:0digits$X}", new[place], old[place]))
}

/// What came of a call: an answer, a loop, or another refusal.
const OUTCOMES: [&str; 3] = ["given", "loop 13", "refused"];

/// The calls that were compared, and their logs.
#[derive(Clone, Default)]
pub struct Tally {
    calls: [[u64; OUTCOMES.len()]; Service::NAMES.len()],
    /// Each log counts once in each round.
    logs: u64,
    round: u64,
    /// The logs of the round, and of all rounds, by a hash of their words.
    of_round: HashSet<u64>,
    different: HashSet<u64>,
}

impl Tally {
    /// A call on these words, a log's or a report's, or those of bytes. Only a log's are counted with the logs.
    pub fn call(&mut self, service: Service, number: u32, words: &[u32], round: u64) {
        let outcome = match number {
            0 => 0,
            13 => 1,
            _ => 2,
        };
        self.calls[service as usize][outcome] += 1;
        if !matches!(service, Service::Thread | Service::Text) {
            self.log(words, round);
        }
    }

    fn log(&mut self, words: &[u32], round: u64) {
        if self.round != round {
            self.round = round;
            self.of_round.clear();
        }
        let mut hasher = DefaultHasher::new();
        words.hash(&mut hasher);
        let hash = hasher.finish();
        if self.of_round.insert(hash) {
            self.logs += 1;
            self.different.insert(hash);
        }
    }

    pub fn add(&mut self, other: &Tally) {
        for (mine, theirs) in self.calls.iter_mut().flatten().zip(other.calls.iter().flatten()) {
            *mine += theirs;
        }
        self.logs += other.logs;
        self.different.extend(&other.different);
    }

    pub fn is_empty(&self) -> bool {
        self.calls.iter().flatten().all(|&count| count == 0)
    }

    pub fn print(&self) {
        println!("calls compared with the older build, word for word");
        row("", &|service| Service::NAMES[service].into());
        for (outcome, name) in OUTCOMES.iter().enumerate() {
            row(name, &|service| grouped(self.calls[service][outcome]));
        }
        println!("logs of these calls: {} by rounds, {} different", grouped(self.logs), grouped(self.different.len() as u64));
    }
}

#[cfg(test)]
mod tests {
    use super::*;
    use crate::lent::Filling;
    use crate::model::Model;
    use crate::random::Random;
    use crate::words::report;

    const ANSWER: Answer = Answer { number: 0, value: 3 };

    /// Ten lent words, and a copy of them in which the word at `changed` differs, counted from the first watched one.
    fn pair(changed: Option<usize>) -> (Lent, Kept) {
        let (mut lent, mut kept) = (Lent::new(), Kept::default());
        lent.fill(10, &Filling::new(), &mut Random::new(1));
        kept.keep(&lent);
        if let Some(place) = changed {
            kept.0[place] = !kept.0[place];
        }
        (lent, kept)
    }

    fn said(old: Answer, changed: Option<usize>) -> Option<String> {
        let (lent, kept) = pair(changed);
        match compare(ANSWER, old, &[("output", &lent, &kept)]) {
            Compared::Other(what) => Some(what),
            Compared::Same => None,
            Compared::Not => unreachable!("they are compared"),
        }
    }

    #[test]
    fn what_is_the_same_is_no_difference() {
        assert_eq!(said(ANSWER, None), None);
    }

    #[test]
    fn another_answer_is_a_difference() {
        let what = said(Answer { number: 0, value: 4 }, None).expect("they differ");
        assert!(
            what.contains("Answer { number: 0, value: 3 }, that of the older build Answer { number: 0, value: 4 }"),
            "{what}"
        );
        assert!(what.contains("the buffers do not differ"), "{what}");
    }

    #[test]
    fn each_word_is_compared() {
        let places = [(0, "word 16 in front of"), (15, "word 1 in front of"), (16, "word 0 of"), (25, "word 9 of")];
        for (place, word) in places.into_iter().chain([(26, "word 1 behind"), (41, "word 16 behind")]) {
            let what = said(ANSWER, Some(place)).expect("they differ");
            assert!(what.contains(&format!("{word} the output is ")), "{what}");
        }
        assert_eq!((0..42).filter(|&place| said(ANSWER, Some(place)).is_some()).count(), 42);
    }

    #[test]
    fn both_values_are_told() {
        let what = first_difference("log", &[1u32; 40], &[[1; 20], [2; 20]].concat()).expect("they differ");
        assert_eq!(what, "word 4 of the log is 00000001, that of the older build 00000002");
    }

    #[test]
    fn a_build_without_the_link_count_is_taken() {
        let without = Older { links: None, ..Older::model() };
        assert!(Older::model().counts_links() && !without.counts_links());
        for (older, compared) in [(Older::model(), true), (without, false)] {
            let mut beside = Beside::new(Model, older);
            let mut lent = Lent::new();
            lent.fill(10, &Filling::new(), &mut Random::new(1));
            beside.links(Door::C, &mut lent);
            assert_eq!(matches!(beside.compared(), Compared::Same), compared);
            beside.read(Door::C, &mut lent);
            assert!(matches!(beside.compared(), Compared::Same));
        }
    }

    #[test]
    fn each_byte_is_compared() {
        let what = first_difference("text buffer", &[1u8; 40], &[[1; 20], [2; 20]].concat()).expect("they differ");
        assert_eq!(what, "byte 4 of the text buffer is 01, that of the older build 02");
        let (mut lent, filling, random) = (Lent::new(), Filling::of_bytes(), &mut Random::new(1));
        lent.fill(10, &filling, random);
        let differs = |place: Option<usize>| {
            let mut kept = Kept::default();
            kept.keep(&lent);
            if let Some(place) = place {
                kept.0[place] ^= 1;
            }
            differing(&[("log", &lent, &kept)]).is_some()
        };
        assert!(!differs(None) && (0..42).all(|place| differs(Some(place))));
    }

    #[test]
    fn a_build_without_the_text_is_taken() {
        let (without, older) = (Older { text: None, ..Older::model() }, Older { versions: false, ..Older::model() });
        assert!(Older::model().prints() && !without.prints());
        let (zero, one, cut) = ([0, 0, 0, 0x10, 0, 0, 0, 0xF0], [0, 0, 0, 0x11, 0, 0, 0, 0xF0], [0, 0, 0, 0x11, 0, 0, 0]);
        let logs: [(&[u8], bool); 3] = [(&zero, true), (&one, false), (&cut, true)];
        for (log, compared) in logs {
            for (older, compared) in [(Older::model(), true), (without, false), (older, compared)] {
                let (mut beside, random) = (Beside::new(Model, older), &mut Random::new(1));
                let (mut bytes, mut text, mut out, mut work) = (Lent::new(), Lent::new(), Lent::new(), Lent::new());
                bytes.set(log, &Filling::of_bytes(), random);
                text.fill(42_640, &Filling::of_bytes(), random);
                out.fill(2, &Filling::new(), random);
                work.fill(16_384, &Filling::new(), random);
                beside.text(Door::C, &mut bytes, &mut text, &mut out, &mut work);
                assert_eq!(matches!(beside.compared(), Compared::Same), compared);
            }
        }
    }

    #[test]
    fn a_build_without_versions_is_taken() {
        let without = Older { versions: false, ..Older::model() };
        let logs = [(0x1000_0000, true), (0x1100_0000, false), (0x1200_0000, false), (0x2200_0000, true)];
        for (head, compared) in logs {
            for (older, compared) in [(Older::model(), true), (without, compared)] {
                let (mut beside, mut log, filling) = (Beside::new(Model, older), Lent::new(), Filling::new());
                let random = &mut Random::new(1);
                let (mut out, mut work) = (Lent::new(), Lent::new());
                log.set(&[head, 0xF000_0000], &filling, random);
                out.fill(2, &filling, random);
                work.fill(16_384, &filling, random);
                let went = |beside: &mut Beside<Model>| matches!(beside.compared(), Compared::Same);
                beside.read(Door::C, &mut log);
                assert_eq!(went(&mut beside), compared);
                beside.links(Door::C, &mut log);
                assert_eq!(went(&mut beside), compared);
                beside.fair_copy(Door::C, &mut log, &mut out, &mut work);
                assert_eq!(went(&mut beside), compared);
                beside.thread(Door::C, &mut log, 0);
                assert!(went(&mut beside));
            }
        }
    }

    #[test]
    fn a_build_without_voices_is_taken() {
        let without = Older { voices: false, ..Older::model() };
        assert!(has_voices(model::header::read) && Older::model().has_voices() && !without.has_voices());
        let voices = voices_word(0, 2);
        let logs: [(&[u32], bool); 4] = [
            (&[0x1000_0001, voices, 0xF000_0000], false),
            (&[0x1000_0001, voices], true),
            (&[0x2000_0001, voices, 0xF000_0000], true),
            (&[0x1000_0001, 0x2000_0000, voices, 0xF000_0000], true),
        ];
        let reports = [(report(&[0], &[vec![0], vec![0]]), false), (report(&[0], &[vec![0]]), true), (vec![0x4000_0002], true)];
        for (older, always) in [(Older::model(), true), (without, false)] {
            let (mut beside, mut lent, filling, random) =
                (Beside::new(Model, older), Lent::new(), Filling::new(), &mut Random::new(1));
            for (log, compared) in logs {
                lent.set(log, &filling, random);
                beside.read(Door::C, &mut lent);
                assert_eq!(matches!(beside.compared(), Compared::Same), always || compared, "{log:X?}");
            }
            for (words, compared) in &reports {
                lent.set(words, &filling, random);
                beside.thread(Door::C, &mut lent, 1);
                assert_eq!(matches!(beside.compared(), Compared::Same), always || *compared, "{words:X?}");
            }
        }
    }

    #[test]
    fn a_log_counts_once_in_a_round() {
        let mut tally = Tally::default();
        assert!(tally.is_empty());
        for (words, round) in [(1, 1), (2, 1), (1, 1), (1, 2)] {
            tally.call(Service::Read, 2, &[words], round);
        }
        tally.call(Service::Thread, 0, &[3], 2);
        assert_eq!((tally.logs, tally.different.len()), (3, 2));
        assert_eq!((tally.calls[Service::Read as usize], tally.calls[Service::Thread as usize]), ([0, 0, 4], [1, 0, 0]));
        assert!(!tally.is_empty());
    }
}
