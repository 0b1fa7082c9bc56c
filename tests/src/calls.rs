//! The calls: each is made on lent buffers of any content, and then every word of every buffer is compared with what
//! it must be.

use crate::checkers::{self, Shown};
use crate::checks::{Check, Checked, Disagreement, Found};
use crate::counts::{Asked, Counts, OutLength, Property, Service, Shape, TextLength, Told, WorkLength};
use crate::lent::{Filling, LONGEST, LONGEST_BYTES, Lent, Unit};
use crate::random::Random;
use crate::reference::{Graph, Input, Parts, Passed, Reading, Refusal, Subject, TEXT, WORK};
use crate::reference::{copy_need, lent, loop_text, refusal_text, report_need, text_lent};
use crate::services::{Answer, Compared, Door, ReadAnswer, Services, TextAnswer, ThreadAnswer};

pub struct Caller<S> {
    services: S,
    pub counts: Counts,
    filling: Filling,
    log: Lent,
    /// The bytes behind the words that came in, where bytes did.
    rest: Vec<u8>,
    out: Lent,
    work: Lent,
    /// The buffers of a report call that is made beside a text call.
    again: [Lent; 2],
    byte_filling: Filling<u8>,
    bytes: Lent<u8>,
    text: Lent<u8>,
    /// The shape of the log that calls are made on; none for words that are no log.
    pub shape: Option<Shape>,
    /// Answers are not compared with the reference: only properties across calls can fail then.
    pub bare: bool,
}

/// What a report call gave: number and place, the loop's words, or the report taken apart and its words.
pub enum Gave {
    Refused(u32, usize),
    Loop(Vec<u32>),
    Report(Shown, Vec<u32>),
}

/// What a link count call gave: the count, or number and place.
pub type Counted = Result<usize, (u32, usize)>;

/// What a fair copy call gave: the copy's words, or number and place.
pub type Copied = Result<Vec<u32>, (u32, usize)>;

/// What a trimmed copy call gave: number and place, the loop's words, or the copy's.
#[derive(Debug, PartialEq, Eq)]
pub enum Trimmed {
    Refused(u32, usize),
    Loop(Vec<u32>),
    Copy(Vec<u32>),
}

/// What a text call gave: number, value, and the text, which is empty where the text buffer is too short.
#[derive(Debug, PartialEq, Eq)]
pub struct Printed {
    pub number: u32,
    pub value: usize,
    pub text: String,
}

/// Lengths of the two buffers that a call writes to.
#[derive(Clone, Copy)]
pub struct Lengths {
    pub out: usize,
    pub work: usize,
}

/// Lengths of the text buffer and of the two others.
#[derive(Clone, Copy)]
pub struct TextLengths {
    pub text: usize,
    pub others: Lengths,
}

static WORK_ZERO: [u32; WORK] = [0; WORK];

impl<S: Services> Caller<S> {
    pub fn new(services: S) -> Caller<S> {
        Caller {
            services,
            counts: Counts::new(),
            filling: Filling::new(),
            log: Lent::new(),
            rest: Vec::new(),
            out: Lent::new(),
            work: Lent::new(),
            again: [Lent::new(), Lent::new()],
            byte_filling: Filling::of_bytes(),
            bytes: Lent::new(),
            text: Lent::new(),
            shape: None,
            bare: false,
        }
    }

    /// Lengths around what is needed; `need` is a guess where the log is refused anyway.
    pub fn lengths(&mut self, need: usize, random: &mut Random) -> Lengths {
        use OutLength as O;
        use WorkLength as W;
        let kind = random.weighted(&[
            (O::Zero, 3),
            (O::Shorter, 3),
            (O::OneShort, 4),
            (O::Need, 50),
            (O::OneMore, 8),
            (O::Longer, 24),
            (O::MuchLonger, 8),
        ]);
        let (kind, out) = match kind {
            O::Zero => (O::Zero, 0),
            O::Shorter if need >= 2 => (O::Shorter, random.below(need - 1)),
            O::OneShort if need >= 1 => (O::OneShort, need - 1),
            O::Shorter | O::OneShort | O::Need => (O::Need, need),
            O::OneMore => (O::OneMore, need + 1),
            O::Longer => (O::Longer, need + random.between(2, 300)),
            O::MuchLonger => (O::MuchLonger, random.between(need + 301, LONGEST)),
        };
        let work_kind =
            random.weighted(&[(W::Zero, 3), (W::Shorter, 3), (W::OneShort, 4), (W::Need, 60), (W::OneMore, 10), (W::Longer, 20)]);
        let work = match work_kind {
            W::Zero => 0,
            W::Shorter => random.below(WORK - 1),
            W::OneShort => WORK - 1,
            W::Need => WORK,
            W::OneMore => WORK + 1,
            W::Longer => random.between(WORK + 2, WORK + 4_000),
        };
        self.counts.lengths(kind, work_kind);
        Lengths { out, work }
    }

    /// The same with lengths of a text buffer around what every text fits.
    pub fn text_lengths(&mut self, need: usize, random: &mut Random) -> TextLengths {
        let text = match random.below(32) {
            0 => 0,
            1 => random.between(1, TEXT - 2),
            2 | 3 => TEXT - 1,
            4..=6 => TEXT + 1,
            7..=12 => random.between(TEXT + 2, LONGEST_BYTES),
            _ => TEXT,
        };
        TextLengths { text, others: self.lengths(need, random) }
    }

    fn door(&mut self, random: &mut Random) -> Door {
        let door = if random.chance(1, 4) { Door::C } else { Door::Rust };
        self.counts.interface(door == Door::C);
        door
    }

    /// Words come in.
    fn come_in(&mut self, words: &[u32], random: &mut Random) {
        self.log.set(words, &self.filling, random);
        self.rest.clear();
    }

    fn lend(&mut self, subject: &Subject, lengths: Lengths, random: &mut Random) {
        self.come_in(&subject.words, random);
        self.out.fill(lengths.out, &self.filling, random);
        self.work.fill(lengths.work, &self.filling, random);
    }

    fn count(&mut self, service: Service, number: u32, subject: &Subject) {
        self.counts.call(service, number);
        if self.bare {
            return;
        }
        self.counts.first(&subject.words);
        if let Some(shape) = self.shape {
            self.counts.shape(shape, &subject.words);
        }
        match subject.reading {
            Ok(reading) => self.counts.size(reading.n),
            Err(Refusal { number, place }) => self.counts.refused(&subject.words, number, place),
        }
        if let Some(passed) = &subject.passed {
            for &pauses in passed.pauses() {
                self.counts.pauses(pauses);
            }
            self.counts.long_pauses(passed.long_pauses(&subject.words));
            for &voiced in passed.voiced() {
                self.counts.voiced(voiced);
            }
        }
    }

    /// How the call went beside an older build, where there is one.
    fn beside(&mut self, service: Service, number: u32) -> Found {
        let mut found = Found::default();
        match self.services.compared() {
            Compared::Not => {}
            Compared::Same => self.counts.compared(service, number, self.log.before()),
            Compared::Other(what) => found.say(Check::Older, || what),
        }
        found
    }

    /// The words that came in, and those around them.
    fn ask_words_kept(&self, found: &mut Found) {
        found.ask(Check::LogKept, self.log.kept(), || first_changed("input", &self.log, 0));
        found.ask(Check::Outside, self.log.outside_kept(), || "a word outside the input has changed".into());
    }

    /// The log, and the words around all buffers.
    fn ask_kept(&self, found: &mut Found) {
        self.ask_words_kept(found);
        for (name, buffer) in [("output", &self.out), ("work buffer", &self.work)] {
            found.ask(Check::Outside, buffer.outside_kept(), || format!("a word outside the {name} has changed"));
        }
    }

    /// After a refusal other than 13: neither output nor work buffer has changed.
    fn ask_refused(&self, answer: Answer, refusal: Refusal, found: &mut Found) {
        ask_refusal(answer.number, answer.value, refusal, found);
        found.ask(Check::OutKept, self.out.kept(), || first_changed("output", &self.out, 0));
        found.ask(Check::WorkKept, self.work.kept(), || first_changed("work", &self.work, 0));
    }

    /// After the other outcomes: the output behind `written`, and the work words.
    fn ask_left(&self, written: usize, found: &mut Found) {
        let behind = self.out.lent()[written..] == self.out.before()[written..];
        found.ask(Check::OutBehind, behind, || first_changed("output", &self.out, written));
        let work = self.work.lent();
        found.ask(Check::WorkZero, work[..WORK] == WORK_ZERO, || {
            let place = work.iter().position(|&word| word != 0).expect("a word is not zero");
            format!("work word {place} is {:08X}", work[place])
        });
        let behind = work[WORK..] == self.work.before()[WORK..];
        found.ask(Check::WorkBehind, behind, || first_changed("work", &self.work, WORK));
    }

    fn judge(&self, service: &'static str, lengths: impl FnOnce() -> String, found: Found) -> Checked<()> {
        if found.0.is_empty() {
            return Ok(());
        }
        let (words, rest) = (self.words().to_vec(), self.rest());
        Err(Box::new(Disagreement { service, found: found.0, lengths: lengths(), words, rest }))
    }

    /// The words that came in with the last call.
    pub fn words(&self) -> &[u32] {
        self.log.before()
    }

    /// The bytes that came in behind them.
    pub fn rest(&self) -> Vec<u8> {
        self.rest.clone()
    }

    pub fn read(&mut self, subject: &Subject, random: &mut Random) -> Checked<ReadAnswer> {
        self.come_in(&subject.words, random);
        let door = self.door(random);
        let answer = self.services.read(door, &mut self.log);
        self.count(Service::Read, answer.number, subject);
        let mut found = self.beside(Service::Read, answer.number);
        let ReadAnswer { number, place, episodes, links } = answer;
        if !self.bare {
            self.ask_words_kept(&mut found);
        }
        match subject.reading {
            _ if self.bare => {}
            Err(refusal) => {
                ask_refusal(number, place, refusal, &mut found);
                found.ask(Check::Values, (episodes, links) == (0, 0), || format!("refused with {episodes} and {links}"));
            }
            Ok(due) => {
                found.ask(Check::Number, number == 0, || format!("refused {number} at {place}, but it passes"));
                found.ask(Check::Values, (place, episodes, links) == (0, due.n, due.links), || {
                    format!("place {place}, {episodes} episodes, {links} links instead of 0, {}, {}", due.n, due.links)
                });
            }
        }
        self.judge("read", || format!("log {} words", self.log.len()), found)?;
        Ok(answer)
    }

    /// The link count, through both doors, which must give the same.
    pub fn links(&mut self, subject: &Subject, random: &mut Random) -> Checked<Counted> {
        let (rust, c) = (self.links_by(Door::Rust, subject, random)?, self.links_by(Door::C, subject, random)?);
        let mut found = Found::default();
        found.ask(Check::BothDoors, rust == c, || format!("{rust:?} through the Rust wrapper, {c:?} through the C header"));
        self.judge("links", || format!("log {} words", self.log.len()), found)?;
        Ok(c)
    }

    fn links_by(&mut self, door: Door, subject: &Subject, random: &mut Random) -> Checked<Counted> {
        self.come_in(&subject.words, random);
        self.counts.interface(door == Door::C);
        let answer = self.services.links(door, &mut self.log);
        self.count(Service::Links, answer.number, subject);
        let mut found = self.beside(Service::Links, answer.number);
        let Answer { number, value } = answer;
        if !self.bare {
            self.ask_words_kept(&mut found);
            if let Err(refusal) = subject.reading {
                ask_refusal(number, value, refusal, &mut found);
            } else if let Some(passed) = &subject.passed
                && ask_given(answer, &mut found)
            {
                let due = passed.link_count();
                found.ask(Check::Values, value == due, || format!("{value} different links instead of {due}"));
                for &links in passed.links(&subject.words) {
                    self.counts.links(links);
                }
            }
        }
        self.judge("links", || format!("log {} words", self.log.len()), found)?;
        Ok(if number == 0 { Ok(value) } else { Err((number, value)) })
    }

    pub fn report(&mut self, subject: &Subject, lengths: Lengths, random: &mut Random) -> Checked<Gave> {
        self.lend(subject, lengths, random);
        let door = self.door(random);
        let answer = self.services.report(door, &mut self.log, &mut self.out, &mut self.work);
        self.count(Service::Report, answer.number, subject);
        let mut found = self.beside(Service::Report, answer.number);
        if !self.bare {
            self.ask_kept(&mut found);
            match passed(subject, |read| report_need(read.n, read.voices), lengths) {
                Err(refusal) => self.ask_refused(answer, refusal, &mut found),
                Ok(passed) => match passed.furthest() {
                    None => self.ask_loop(answer, &passed.graph, &mut found),
                    Some(furthest) => self.ask_report(answer, &passed.graph, furthest, &mut found),
                },
            }
        }
        let gave = match answer.number {
            0 => {
                let words = self.written(answer.value);
                checkers::layout(&words).map_or(Gave::Refused(0, 0), |shown| Gave::Report(shown, words))
            }
            13 => Gave::Loop(self.written(answer.value.saturating_add(1))),
            number => Gave::Refused(number, answer.value),
        };
        self.judge("report", || self.three_lengths(), found)?;
        Ok(gave)
    }

    /// The first words of the output.
    fn written(&self, count: usize) -> Vec<u32> {
        self.out.lent()[..count.min(self.out.len())].to_vec()
    }

    fn ask_loop(&self, answer: Answer, graph: &Graph, found: &mut Found) {
        let Answer { number, value: length } = answer;
        if number != 13 {
            return found.say(Check::Number, || format!("number {number} instead of 13"));
        }
        if length >= self.out.len() {
            return found.say(Check::Loop, || format!("a loop of {length} in {} words", self.out.len()));
        }
        match checkers::loop_steps(&self.out.lent()[..length + 1]) {
            Err(what) => found.say(Check::Loop, || what),
            Ok(steps) => {
                if let Some(what) = checkers::not_a_loop(&steps, graph) {
                    found.say(Check::Loop, || what);
                }
            }
        }
        self.ask_left(length + 1, found);
    }

    fn ask_report(&self, answer: Answer, graph: &Graph, furthest: &[usize], found: &mut Found) {
        if !ask_given(answer, found) {
            return;
        }
        let count = answer.value;
        if count > self.out.len() {
            return found.say(Check::Layout, || format!("a report of {count} words in {}", self.out.len()));
        }
        match checkers::layout(&self.out.lent()[..count]) {
            Err(what) => found.say(Check::Layout, || what),
            Ok(shown) => checkers::report(&shown, graph, furthest, found),
        }
        self.ask_left(count, found);
    }

    pub fn fair_copy(&mut self, subject: &Subject, lengths: Lengths, random: &mut Random) -> Checked<Copied> {
        self.lend(subject, lengths, random);
        let door = self.door(random);
        let answer = self.services.fair_copy(door, &mut self.log, &mut self.out, &mut self.work);
        self.count(Service::FairCopy, answer.number, subject);
        let mut found = self.beside(Service::FairCopy, answer.number);
        if !self.bare {
            self.ask_kept(&mut found);
            match passed(subject, |read| copy_need(read.links, read.voices), lengths) {
                Err(refusal) => self.ask_refused(answer, refusal, &mut found),
                Ok(passed) => self.ask_copy(Check::FairCopy, answer, passed.fair_copy(), &mut found),
            }
        }
        let copy = match answer.number {
            0 => Ok(self.written(answer.value)),
            number => Err((number, answer.value)),
        };
        self.judge("fair_copy", || self.three_lengths(), found)?;
        Ok(copy)
    }

    pub fn trimmed_copy(&mut self, subject: &Subject, lengths: Lengths, random: &mut Random) -> Checked<Trimmed> {
        self.lend(subject, lengths, random);
        let door = self.door(random);
        let answer = self.services.trimmed_copy(door, &mut self.log, &mut self.out, &mut self.work);
        self.count(Service::TrimmedCopy, answer.number, subject);
        let mut found = self.beside(Service::TrimmedCopy, answer.number);
        if !self.bare {
            self.ask_kept(&mut found);
            match passed(subject, |read| copy_need(read.links, read.voices), lengths) {
                Err(refusal) => self.ask_refused(answer, refusal, &mut found),
                Ok(passed) => match passed.trimmed_copy() {
                    None => self.ask_loop(answer, &passed.graph, &mut found),
                    Some(copy) => self.ask_copy(Check::TrimmedCopy, answer, copy, &mut found),
                },
            }
        }
        let trimmed = match answer.number {
            0 => Trimmed::Copy(self.written(answer.value)),
            13 => Trimmed::Loop(self.written(answer.value.saturating_add(1))),
            number => Trimmed::Refused(number, answer.value),
        };
        self.judge("trimmed_copy", || self.three_lengths(), found)?;
        Ok(trimmed)
    }

    /// A copy: the answer, its words, and what is left.
    fn ask_copy(&self, check: Check, answer: Answer, copy: &[u32], found: &mut Found) {
        if !ask_given(answer, found) {
            return;
        }
        let (count, out) = (copy.len(), self.out.lent());
        found.ask(Check::Values, answer.value == count, || format!("{} words instead of {count}", answer.value));
        found.ask(check, out[..count] == *copy, || {
            let place = copy.iter().zip(out).position(|(a, b)| a != b).expect("a word differs");
            format!("word {place} is {:08X} instead of {:08X}", out[place], copy[place])
        });
        self.ask_left(count, found);
    }

    /// Asks for each of the threads `wanted` of the same words. Their steps come back, or the refusal's number.
    pub fn threads(
        &mut self,
        words: &[u32],
        parts: &Result<Parts, Refusal>,
        wanted: &[usize],
        asked: Asked,
        random: &mut Random,
    ) -> Checked<Vec<Result<Vec<u32>, u32>>> {
        self.come_in(words, random);
        let mut stretches = Vec::new();
        for &i in wanted {
            let door = self.door(random);
            let answer = self.services.thread(door, &mut self.log, i);
            self.counts.call(Service::Thread, answer.number);
            self.counts.asked(asked);
            let mut found = self.beside(Service::Thread, answer.number);
            let ThreadAnswer { number, start, length } = answer;
            if !self.bare {
                self.ask_words_kept(&mut found);
                let expected = parts.as_ref().map_err(|refusal| *refusal).and_then(|parts| parts.thread(i));
                let (due, stretch) = expected.map_or_else(|refusal| (refusal.number, (0, 0)), |stretch| (0, stretch));
                found.ask(Check::Number, number == due, || format!("number {number} instead of {due} for thread {i}"));
                found.ask(Check::Stretch, (start, length) == stretch, || {
                    format!("thread {i}: {length} words from {start} instead of {} from {}", stretch.1, stretch.0)
                });
            }
            let lent = self.log.lent();
            let end = start.saturating_add(length);
            stretches.push(if number == 0 { Ok(lent.get(start..end).unwrap_or(&[]).to_vec()) } else { Err(number) });
            self.judge("thread", || format!("report {} words, thread {i}", self.log.len()), found)?;
        }
        Ok(stretches)
    }

    /// The text of bytes. In most calls a report call on the words is made too, on buffers that have the same words.
    pub fn text(&mut self, input: &Input, lengths: TextLengths, random: &mut Random) -> Checked<Printed> {
        let door = if random.chance(1, 4) { Door::C } else { Door::Rust };
        self.text_by(door, input, lengths, random)
    }

    pub fn text_by(&mut self, door: Door, input: &Input, lengths: TextLengths, random: &mut Random) -> Checked<Printed> {
        let (words, rest) = input.bytes.as_chunks::<4>();
        self.come_in(&Vec::from_iter(words.iter().map(|four| u32::from_le_bytes(*four))), random);
        self.rest.extend_from_slice(rest);
        self.bytes.set(&input.bytes, &self.byte_filling, random);
        self.text.fill(lengths.text, &self.byte_filling, random);
        self.out.fill(lengths.others.out, &self.filling, random);
        self.work.fill(lengths.others.work, &self.filling, random);
        self.counts.interface(door == Door::C);
        self.counts.text_lengths(input.bytes.len(), TextLength::met(lengths.text));
        let answer = self.services.text(door, &mut self.bytes, &mut self.text, &mut self.out, &mut self.work);
        let asked = text_lent(lengths.text).and(input.log);
        match asked {
            Ok(subject) => self.count(Service::Text, answer.number, subject),
            Err(_) => self.counts.call(Service::Text, answer.number),
        }
        let mut found = self.beside(Service::Text, answer.number);
        if !self.bare {
            self.ask_text(answer, input, lengths, &mut found);
        }
        let TextAnswer { number, value, bytes } = answer;
        let text = String::from_utf8_lossy(&self.text.lent()[..bytes.min(self.text.len())]).into_owned();
        self.judge("text", || self.four_lengths(), found)?;
        if let Ok(subject) = asked
            && random.chance(3, 4)
        {
            self.as_report(answer, door, subject, random)?;
        }
        Ok(Printed { number, value, text })
    }

    /// All buffers after a text call, and the text.
    fn ask_text(&mut self, answer: TextAnswer, input: &Input, lengths: TextLengths, found: &mut Found) {
        let TextAnswer { number, value, bytes } = answer;
        let call = Answer { number, value };
        self.ask_kept(found);
        found.ask(Check::LogKept, self.bytes.kept(), || first_changed("input", &self.bytes, 0));
        for (name, buffer) in [("input", &self.bytes), ("text buffer", &self.text)] {
            found.ask(Check::Outside, buffer.outside_kept(), || format!("a byte outside the {name} has changed"));
        }
        let passed = input.log.and_then(|subject| passed(subject, |read| report_need(read.n, read.voices), lengths.others));
        if let Err(refusal) = text_lent(lengths.text) {
            self.counts.told(match (input.log.map(|subject| subject.reading), &passed) {
                (Err(_), _) => Told::ShortBytes,
                (Ok(Err(_)), _) => Told::ShortWords,
                (_, Err(_)) => Told::ShortOthers,
                _ => Told::Short,
            });
            self.ask_refused(call, refusal, found);
            found.ask(Check::Values, bytes == 0, || format!("{bytes} bytes in a text buffer that is too short"));
            found.ask(Check::TextKept, self.text.kept(), || first_changed("text", &self.text, 0));
            return;
        }
        // Threads and loop are free: the text has those that stand in the output, which are judged.
        let (told, due) = match passed {
            Err(refusal) => {
                self.ask_refused(call, refusal, found);
                let short = lengths.others.out < 2 || lengths.others.work < WORK;
                let told = match refusal.number {
                    11 => Told::ShortOut,
                    12 => Told::ShortWork,
                    14 | 15 if short => Told::BytesShort,
                    14 | 15 => Told::Bytes,
                    _ => Told::Refused,
                };
                (told, Ok(refusal_text(refusal)))
            }
            Ok(passed) => match passed.furthest() {
                None => {
                    self.ask_loop(call, &passed.graph, found);
                    let told = if value == 1 { Told::Own } else { Told::Loop };
                    (told, checkers::loop_steps(&self.written(value.saturating_add(1))).map(|steps| loop_text(&steps)))
                }
                Some(furthest) => {
                    self.ask_report(call, &passed.graph, furthest, found);
                    let told = match furthest.len() {
                        0 => Told::NoApart,
                        members if members < passed.graph.weight(furthest) => Told::Fewer,
                        _ => Told::Report,
                    };
                    (told, checkers::layout(&self.written(value)).map(|shown| passed.text(furthest, shown.threads)))
                }
            },
        };
        self.counts.told(told);
        match due {
            Ok(due) => self.ask_printed(bytes, &due, found),
            Err(what) => found.say(Check::Text, || format!("the output has neither threads nor a loop: {what}")),
        }
    }

    /// The text buffer: the text, and what is behind it.
    fn ask_printed(&mut self, bytes: usize, due: &str, found: &mut Found) {
        self.counts.printed(due);
        let (text, count) = (self.text.lent(), due.len());
        found.ask(Check::Values, bytes == count, || format!("{bytes} bytes instead of {count}"));
        if count > text.len() {
            return found.say(Check::Text, || format!("a text of {count} bytes in {}", text.len()));
        }
        found.ask(Check::Text, text[..count] == *due.as_bytes(), || {
            let place = due.bytes().zip(text).position(|(due, given)| due != *given).unwrap_or(count);
            let shown =
                |text: &[u8]| String::from_utf8_lossy(&text[place.saturating_sub(20)..count.min(place + 20)]).into_owned();
            format!("byte {place}: {:?} instead of {:?}", shown(text), shown(due.as_bytes()))
        });
        let behind = text[count..] == self.text.before()[count..];
        found.ask(Check::TextBehind, behind, || first_changed("text", &self.text, count));
    }

    /// A report call on the words that came in, on buffers with the words that the text call had: it gives and leaves the same.
    fn as_report(&mut self, answer: TextAnswer, door: Door, subject: &Subject, random: &mut Random) -> Checked<()> {
        let [out, work] = &mut self.again;
        out.set(self.out.before(), &self.filling, random);
        work.set(self.work.before(), &self.filling, random);
        let report = self.services.report(door, &mut self.log, out, work);
        self.counts.interface(door == Door::C);
        self.counts.property(Property::AsReport);
        self.count(Service::Report, report.number, subject);
        let mut found = self.beside(Service::Report, report.number);
        let (text, call) = ((answer.number, answer.value), (report.number, report.value));
        found.ask(Check::AsReport, text == call, || format!("number and value {text:?}, those of a report {call:?}"));
        for (name, own, other) in [("output", &self.out, &self.again[0]), ("work buffer", &self.work, &self.again[1])] {
            let place = own.lent().iter().zip(other.lent()).position(|(own, other)| own != other);
            found.ask(Check::AsReport, place.is_none(), || {
                format!("word {} of the {name} is another than after a report", place.unwrap_or(0))
            });
        }
        self.judge("text", || self.four_lengths(), found)
    }

    fn four_lengths(&self) -> String {
        format!("log {} bytes, text {}, output {}, work {}", self.bytes.len(), self.text.len(), self.out.len(), self.work.len())
    }

    fn three_lengths(&self) -> String {
        format!("log {} words, output {}, work {}", self.log.len(), self.out.len(), self.work.len())
    }
}

/// Questions 1 to 12 and 18 to 21, for a call that needs so many output words for what the log has.
fn passed(subject: &Subject, need: fn(Reading) -> usize, lengths: Lengths) -> Result<&Passed, Refusal> {
    lent(need(subject.reading?), lengths.out, lengths.work)?;
    Ok(subject.passed.as_ref().expect("a log that passes has a graph"))
}

/// Whether a count, a report or a copy was given; it must have been.
fn ask_given(answer: Answer, found: &mut Found) -> bool {
    found.ask(Check::Number, answer.number == 0, || format!("refused {} at {}", answer.number, answer.value));
    answer.number == 0
}

fn ask_refusal(number: u32, place: usize, refusal: Refusal, found: &mut Found) {
    found.ask(Check::Number, number == refusal.number, || format!("number {number} instead of {}", refusal.number));
    found.ask(Check::Place, place == refusal.place, || format!("place {place} instead of {}", refusal.place));
}

fn first_changed<T: Unit>(name: &str, buffer: &Lent<T>, from: usize) -> String {
    let pairs = buffer.lent().iter().zip(buffer.before());
    let place = pairs.skip(from).position(|(now, before)| now != before).map_or(from, |place| from + place);
    format!("{name} {} {place} has changed", T::NAME)
}
