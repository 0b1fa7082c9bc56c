//! The properties of the trimmed copy across calls, on buffers that suffice.

use crate::calls::{Caller, Gave, Trimmed};
use crate::checkers::{self, Shown};
use crate::checks::{Check, Checked, Disagreement, Found};
use crate::counts::{Property, Shape};
use crate::damage;
use crate::random::Random;
use crate::reference::{Graph, Subject, in_order};
use crate::rounds::{again, copied, copy_lengths, own_text, reported};
use crate::services::{ReadAnswer, Services};
use crate::shapes::{self, Linked, long_pause, short_pause};
use crate::words::{LONGEST_COUNTED, Link, Noted, hex};

/// A log that passes with its ways, and what the first calls on it gave.
struct Given {
    log: Subject,
    linked: Linked,
    graph: Graph,
    /// Of each episode, whether each other has a way from it.
    ways: Vec<Vec<bool>>,
    shown: Shown,
    /// The link count.
    count: usize,
    copy: Vec<u32>,
}

/// All properties, on one log that passes; and on that log with damage, whether the calls have the same outcome.
pub fn properties<S: Services>(caller: &mut Caller<S>, random: &mut Random) -> Checked<()> {
    let (shape, linked) = shapes::passing(random);
    let log = Subject::new(shapes::written(&linked, random));
    let mut damaged = log.words.clone();
    caller.counts.damage(damage::to_log(&mut damaged, random));
    caller.counts.property(Property::Damaged);
    caller.shape = Some(Shape::Damaged);
    same_outcome(caller, &Subject::new(damaged), random)?;

    caller.shape = Some(shape);
    caller.counts.property(Property::SameOutcome);
    let Some((shown, count, copy)) = same_outcome(caller, &log, random)? else { return Ok(()) };
    let graph = Graph::of(&log.words);
    let ways = (0..graph.n).map(|v| graph.ways_from(v)).collect();
    let given = Given { log, linked, graph, ways, shown, count, copy };
    let mut found = Found::default();
    copies(caller, &given, &mut found, random)?;
    same_ways(caller, &given, &mut found, random)?;
    other_ways(caller, &given, &mut found, random)?;
    if found.0.is_empty() {
        return Ok(());
    }
    Err(Box::new(Disagreement {
        service: "properties",
        found: found.0,
        lengths: String::new(),
        words: given.log.words,
        rest: Vec::new(),
    }))
}

/// A trimmed copy call on buffers that suffice.
pub fn trimmed<S: Services>(caller: &mut Caller<S>, subject: &Subject, random: &mut Random) -> Checked<Trimmed> {
    let lengths = copy_lengths(subject, random);
    caller.trimmed_copy(subject, lengths, random)
}

/// Reading, link count, report and trimmed copy of one log: all have the same refusal; or the last two show a loop; or the
/// last three are given and come back.
fn same_outcome<S: Services>(
    caller: &mut Caller<S>,
    subject: &Subject,
    random: &mut Random,
) -> Checked<Option<(Shown, usize, Vec<u32>)>> {
    let reading = caller.read(subject, random)?;
    let read = (reading.number, reading.place);
    let count = caller.links(subject, random)?;
    let report = reported(caller, subject, random)?;
    let trimmed = trimmed(caller, subject, random)?;
    own_text(caller, subject, (reading, &count, &report), random)?;
    let outcome = match &report {
        Gave::Refused(number, place) => format!("refused {number} at {place}"),
        Gave::Loop(_) => "a loop".into(),
        Gave::Report(..) => "a report".into(),
    };
    match (count, report, trimmed) {
        (Ok(count), Gave::Report(shown, _), Trimmed::Copy(copy)) if read.0 == 0 => Ok(Some((shown, count, copy))),
        (Ok(_), Gave::Loop(_), Trimmed::Loop(_)) if read.0 == 0 => Ok(None),
        (Err(refusal), Gave::Refused(number, place), Trimmed::Refused(other, at))
            if [refusal, (number, place), (other, at)] == [read; 3] =>
        {
            Ok(None)
        }
        (count, _, trimmed) => {
            let (number, place) = read;
            let what = format!("reading {number} at {place}, link count {count:?}, report {outcome}, trimmed copy {trimmed:X?}");
            let (found, words) = (vec![(Check::SameOutcome, what)], subject.words.clone());
            Err(Box::new(Disagreement { service: "properties", found, lengths: String::new(), words, rest: Vec::new() }))
        }
    }
}

/// A log in a message, if it is short.
pub fn in_words(log: &Subject) -> String {
    if log.words.len() <= 64 { hex(&log.words) } else { format!("a log of {} words", log.words.len()) }
}

/// Calls on the trimmed copy and on the fair copy.
fn copies<S: Services>(caller: &mut Caller<S>, given: &Given, found: &mut Found, random: &mut Random) -> Checked<()> {
    let copy = Subject::new(given.copy.clone());
    let due = Trimmed::Copy(given.copy.clone());
    caller.counts.property(Property::TrimmedOfCopies);
    let fair = Subject::new(copied(caller, &given.log, random)?.unwrap_or_default());
    let twice = trimmed(caller, &copy, random)?;
    found.ask(Check::TrimmedOfCopies, twice == due, || format!("of the trimmed copy: {twice:X?}"));
    let of_fair = trimmed(caller, &fair, random)?;
    found.ask(Check::TrimmedOfCopies, of_fair == due, || format!("of the fair copy: {of_fair:X?}"));
    let fair_of = copied(caller, &copy, random)?;
    found.ask(Check::TrimmedOfCopies, fair_of.as_ref() == Ok(&given.copy), || format!("its fair copy: {fair_of:X?}"));

    caller.counts.property(Property::TrimmedRead);
    let read = caller.read(&copy, random)?;
    let links = if in_order(&given.copy).is_ok() { Graph::of(&given.copy).links.len() } else { 0 };
    let read_due = ReadAnswer { number: 0, place: 0, episodes: given.graph.n, links };
    found.ask(Check::TrimmedWays, read == read_due, || format!("{read:?} of the trimmed copy"));
    let count = caller.links(&copy, random)?;
    found.ask(Check::TrimmedCount, count == Ok(read.links) && read.links <= given.count, || {
        format!("{count:?} for the trimmed copy, which has {} to words, and {} for the log", read.links, given.count)
    });
    if let Some(what) = checkers::no_same_ways(&given.copy, &given.graph) {
        found.say(Check::TrimmedWays, || what);
    }
    match reported(caller, &copy, random)? {
        Gave::Report(other, _) => {
            let shown = &given.shown;
            found.ask(Check::TrimmedReport, (other.width, &other.apart) == (shown.width, &shown.apart), || {
                format!("width {}, apart {:?} instead of {}, {:?}", other.width, other.apart, shown.width, shown.apart)
            });
            if let Some(what) = checkers::no_cover(&other.threads, &given.graph) {
                found.say(Check::TrimmedCover, || what);
            }
        }
        _ => found.say(Check::TrimmedReport, || "the trimmed copy has no report".into()),
    }
    Ok(())
}

impl Given {
    /// Whether ways lead from the first episode to another one and from there to the second.
    fn implied(&self, (from, to): Link) -> bool {
        (0..self.graph.n).any(|between| self.ways[from][between] && self.ways[between][to])
    }

    /// Other links with the same ways, in any version: some that are implied left out, some of the ways added, repeats, and
    /// other pauses. In version 1 all these count, and some are added between any episodes that do not.
    fn with_same_ways(&self, random: &mut Random) -> Linked {
        let (n, version) = (self.graph.n, random.below(2));
        let given = self.graph.links.iter().copied();
        let mut links: Vec<Link> = given.filter(|&link| !self.implied(link) || random.chance(1, 2)).collect();
        for _ in 0..random.between(0, 20).min(4_096 - links.len()) {
            let from = random.below(n.max(1));
            let ends: Vec<usize> = (0..n).filter(|&to| self.ways[from][to]).collect();
            if !ends.is_empty() {
                links.push((from, *random.pick(&ends)));
            }
        }
        let mut noted = shapes::noted(&links, random);
        if version == 1 {
            for link in noted.iter_mut().filter(|link| link.2 > LONGEST_COUNTED) {
                link.2 = short_pause(random);
            }
            for _ in 0..random.between(0, 8).min(if n == 0 { 0 } else { 4_096 - noted.len() }) {
                let link = (random.below(n), random.below(n));
                if !links.contains(&link) {
                    noted.push((link.0, link.1, long_pause(random)));
                }
            }
        }
        again(&Linked { version, n, said: self.linked.said.clone(), links: noted }, random)
    }

    /// The log with one link more that counts, between episodes of which none has a way to the other.
    fn with_way_more(&self, random: &mut Random) -> Option<Linked> {
        let n = self.graph.n;
        if n == 0 || self.linked.links.len() == 4_096 {
            return None;
        }
        let mut tries = (0..16).map(|_| (random.below(n), random.below(n)));
        let (from, to) = tries.find(|&(from, to)| from != to && !self.ways[from][to] && !self.ways[to][from])?;
        let mut links = self.linked.links.clone();
        let pause = if self.linked.version == 0 { shapes::any_pause(random) } else { short_pause(random) };
        links.insert(random.below(links.len() + 1), (from, to, pause));
        Some(Linked { links, ..self.linked.clone() })
    }

    /// The log without one of the links that are not implied; in version 1 it can be there with long pauses, and not count.
    fn with_way_fewer(&self, random: &mut Random) -> Option<Linked> {
        let stay: Vec<Link> = self.graph.links.iter().copied().filter(|&link| !self.implied(link)).collect();
        if stay.is_empty() {
            return None;
        }
        let out = *random.pick(&stay);
        let is_out = |link: &Noted| (link.0, link.1) == out;
        let mut links = self.linked.links.clone();
        if self.linked.version == 1 && random.chance(1, 2) {
            links.iter_mut().filter(|link| is_out(link)).for_each(|link| link.2 = long_pause(random));
        } else {
            links.retain(|link| !is_out(link));
        }
        Some(Linked { links, ..self.linked.clone() })
    }
}

/// A log with the same ways has the same trimmed copy, and all its links.
fn same_ways<S: Services>(caller: &mut Caller<S>, given: &Given, found: &mut Found, random: &mut Random) -> Checked<()> {
    let linked = given.with_same_ways(random);
    let same = Subject::new(shapes::written(&linked, random));
    let graph = Graph::of(&same.words);
    if graph.links != given.graph.links {
        caller.counts.property(Property::SameWays);
    }
    if linked.version != given.linked.version {
        caller.counts.property(Property::TrimmedVersions);
    }
    let other = trimmed(caller, &same, random)?;
    found.ask(Check::SameTrimmed, other == Trimmed::Copy(given.copy.clone()), || {
        format!("another trimmed copy for the same ways: {}", in_words(&same))
    });
    if in_order(&given.copy).is_ok() {
        let left = Graph::of(&given.copy).links.into_iter().find(|link| graph.links.binary_search(link).is_err());
        found.ask(Check::Least, left.is_none(), || {
            format!("the trimmed copy has the link {left:?}, this log with the same ways has not: {}", in_words(&same))
        });
    }
    Ok(())
}

/// A log with other ways, or with another n, has another trimmed copy.
fn other_ways<S: Services>(caller: &mut Caller<S>, given: &Given, found: &mut Found, random: &mut Random) -> Checked<()> {
    let n = given.graph.n;
    let more = given.with_way_more(random).map(|linked| (Property::WayMore, shapes::written(&linked, random)));
    let fewer = given.with_way_fewer(random).map(|linked| (Property::WayFewer, shapes::written(&linked, random)));
    let longer = Linked { n: n + 1, ..given.linked.clone() };
    let episode = (n < given.linked.most()).then(|| (Property::TrimmedEpisode, shapes::written(&longer, random)));
    for (property, words) in [more, fewer, episode].into_iter().flatten() {
        caller.counts.property(property);
        let subject = Subject::new(words);
        let other = trimmed(caller, &subject, random)?;
        found.ask(Check::OtherTrimmed, other != Trimmed::Copy(given.copy.clone()), || {
            format!("the same trimmed copy for {}", in_words(&subject))
        });
    }
    Ok(())
}
