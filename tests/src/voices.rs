//! The properties of voices across calls, on logs that pass and buffers that suffice.

use crate::calls::{Caller, Copied, Gave, Trimmed};
use crate::checks::{Check, Checked, Disagreement, Found};
use crate::counts::{Property, Shape};
use crate::random::Random;
use crate::reference::{Graph, MOST_WITH_VOICES, Subject};
use crate::rounds::{alike, copied, reported};
use crate::services::Services;
use crate::shapes::{self, Linked};
use crate::trimmed::in_words;
use crate::versions::Given;
use crate::words::{MOST_VOICES, Said, log, older, with_voices};

/// What the calls on one log gave, and its fair copy.
struct All {
    given: Given,
    copy: Copied,
}

impl All {
    fn by<S: Services>(caller: &mut Caller<S>, subject: &Subject, random: &mut Random) -> Checked<All> {
        let copy = copied(caller, subject, random)?;
        Ok(All { given: Given::by(caller, subject, random)?, copy })
    }

    /// Whether the calls on another log gave the same, word for word.
    fn same(&self, other: &All) -> bool {
        self.given.same(&other.given) && self.copy == other.copy
    }

    fn width(&self) -> Option<usize> {
        if let Gave::Report(shown, _) = &self.given.report { Some(shown.width) } else { None }
    }
}

/// A log without voices words, and some of its voices.
struct Plain {
    words: Vec<u32>,
    said: Vec<Said>,
    n: usize,
}

impl Plain {
    fn with(&self, said: &[Said]) -> Subject {
        Subject::new(with_voices(said, self.words.clone()))
    }
}

/// All properties, on one log that passes.
pub fn properties<S: Services>(caller: &mut Caller<S>, random: &mut Random) -> Checked<()> {
    let (shape, linked) = loop {
        let (shape, linked) = match random.below(3) {
            0 => (Shape::Loops, shapes::linked(Shape::Loops, random)),
            _ => shapes::passing(random),
        };
        if (1..=MOST_WITH_VOICES).contains(&linked.n) {
            break (shape, linked);
        }
    };
    caller.shape = Some(shape);
    let said = shapes::said(linked.n, random);
    let words = shapes::written(&Linked { said: Vec::new(), ..linked.clone() }, random);
    let log = Plain { words, said, n: linked.n };
    let mut found = Found::default();
    let subject = log.with(&log.said);
    let all = All::by(caller, &subject, random)?;
    in_order(caller, &log, &all, &mut found, random)?;
    ones(caller, &log, &all, &mut found, random)?;
    one_kind(caller, &log, &mut found, random)?;
    other_voices(caller, &log, &all, &mut found, random)?;
    as_items(caller, &subject, &all, &mut found, random)?;
    if found.0.is_empty() {
        return Ok(());
    }
    Err(Box::new(Disagreement {
        service: "properties",
        found: found.0,
        lengths: String::new(),
        words: subject.words,
        rest: Vec::new(),
    }))
}

/// The order of the voices words does not matter.
fn in_order<S: Services>(caller: &mut Caller<S>, log: &Plain, all: &All, found: &mut Found, random: &mut Random) -> Checked<()> {
    let mut said = log.said.clone();
    random.shuffle(&mut said);
    if said != log.said {
        caller.counts.property(Property::VoicesOrder);
    }
    let other = log.with(&said);
    let same = All::by(caller, &other, random)?.same(all);
    found.ask(Check::VoicesOrder, same, || format!("not the same for {}", in_words(&other)));
    Ok(())
}

/// Voices words that say 1 change nothing: some of these beside the others, and some alone.
fn ones<S: Services>(caller: &mut Caller<S>, log: &Plain, all: &All, found: &mut Found, random: &mut Random) -> Checked<()> {
    caller.counts.property(Property::SaidOnes);
    let others: Vec<Said> = log.said.iter().copied().filter(|said| said.1 != 1).collect();
    let without = log.with(&others);
    let same = All::by(caller, &without, random)?.same(all);
    found.ask(Check::SaidOnes, same, || format!("not the same without the words that say 1: {}", in_words(&without)));
    let mut some: Vec<Said> = (0..log.n).filter(|_| random.chance(1, 2)).map(|v| (v, 1)).collect();
    random.shuffle(&mut some);
    let (plain, with) = (log.with(&[]), log.with(&some));
    let same = All::by(caller, &plain, random)?.same(&All::by(caller, &with, random)?);
    found.ask(Check::SaidOnes, same, || format!("not that of the log without voices words: {}", in_words(&with)));
    Ok(())
}

/// All episodes doors: no thread, or a loop. All duets: twice the width of one voice each, and the same apart set.
fn one_kind<S: Services>(caller: &mut Caller<S>, log: &Plain, found: &mut Found, random: &mut Random) -> Checked<()> {
    let [doors, single, duets] = [0, 1, 2].map(|voices| log.with(&Vec::from_iter((0..log.n).map(|v| (v, voices)))));
    let gave = reported(caller, &doors, random)?;
    let (none, is_loop) = match &gave {
        Gave::Report(_, words) => (*words == [0x4000_0000, 0xF000_0001], false),
        other => (false, matches!(other, Gave::Loop(_))),
    };
    caller.counts.property(if is_loop { Property::DoorsLoop } else { Property::Doors });
    found.ask(Check::Doors, none || is_loop, || format!("another report than 40000000 F0000001: {}", in_words(&doors)));

    let (single, twice) = (reported(caller, &single, random)?, reported(caller, &duets, random)?);
    let right = match (&single, &twice) {
        (Gave::Report(one, _), Gave::Report(two, _)) => {
            caller.counts.property(Property::AllDuets);
            two.width == 2 * one.width && two.apart == one.apart
        }
        (one, two) => alike(one, two),
    };
    found.ask(Check::AllDuets, right && is_loop == matches!(twice, Gave::Loop(_)), || {
        format!("not twice the width, or another apart set: {}", in_words(&duets))
    });
    Ok(())
}

/// One voice more or fewer of one episode: another copy, the same link count, and a width that is the same or one more or less.
fn other_voices<S: Services>(
    caller: &mut Caller<S>,
    log: &Plain,
    all: &All,
    found: &mut Found,
    random: &mut Random,
) -> Checked<()> {
    let v = random.below(log.n);
    let voices = log.said.iter().find(|said| said.0 == v).map_or(1, |said| said.1);
    let more = voices == 0 || (voices < MOST_VOICES && random.chance(1, 2));
    let now = if more { voices + 1 } else { voices - 1 };
    let mut said: Vec<Said> = log.said.iter().copied().filter(|said| said.0 != v).collect();
    said.insert(random.below(said.len() + 1), (v, now));
    let other = log.with(&said);
    let gave = All::by(caller, &other, random)?;
    caller.counts.property(if more { Property::VoiceMore } else { Property::VoiceFewer });
    let what = || format!("{v} with {now} voices: {}", in_words(&other));
    let copies = gave.copy != all.copy && gave.given.count == all.given.count;
    let trimmed = match (&gave.given.trimmed, &all.given.trimmed) {
        (Trimmed::Loop(one), Trimmed::Loop(two)) => one == two,
        (one, two) => one != two,
    };
    found.ask(Check::OtherVoices, copies && trimmed, what);
    let right = match (all.width(), gave.width()) {
        (Some(before), Some(after)) => {
            let (less, more) = if more { (before, after) } else { (after, before) };
            if less < more {
                caller.counts.property(Property::WidthOne);
            }
            (less..=less + 1).contains(&more)
        }
        (before, after) => before == after,
    };
    found.ask(Check::VoiceMore, right, what);
    Ok(())
}

/// The log that has an episode for each voice of another, and a link for each way between their owners; whose each episode is.
fn items(graph: &Graph, random: &mut Random) -> Option<(Subject, Vec<usize>)> {
    let owners: Vec<usize> = (0..graph.n).flat_map(|v| std::iter::repeat_n(v, graph.voices[v])).collect();
    let ways: Vec<Vec<bool>> = (0..graph.n).map(|v| graph.ways_from(v)).collect();
    let mut links = Vec::new();
    for (x, &from) in owners.iter().enumerate() {
        links.extend(owners.iter().enumerate().filter(|(_, to)| ways[from][**to]).map(|(y, _)| (x, y)));
    }
    let fits = owners.len() <= 200 && links.len() <= 4_096;
    fits.then(|| (Subject::new(log(owners.len(), &older(&links), 0, random)), owners))
}

/// A log without loops has the width and the apart set of that with an episode for each voice and a link for each way.
fn as_items<S: Services>(
    caller: &mut Caller<S>,
    subject: &Subject,
    all: &All,
    found: &mut Found,
    random: &mut Random,
) -> Checked<()> {
    let Gave::Report(shown, _) = &all.given.report else { return Ok(()) };
    let Some((log, owners)) = items(&Graph::of(&subject.words), random) else { return Ok(()) };
    caller.counts.property(Property::AsItems);
    let same = match reported(caller, &log, random)? {
        Gave::Report(other, _) => {
            let mut owners: Vec<usize> = other.apart.iter().filter_map(|&item| owners.get(item)).copied().collect();
            let voices = owners.len();
            owners.dedup();
            other.width == shown.width && voices == shown.width && owners == shown.apart
        }
        _ => false,
    };
    found.ask(Check::AsItems, same, || format!("another width or apart set of the items: {}", in_words(&log)));
    Ok(())
}
