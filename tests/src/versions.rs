//! The properties of versions across calls, on logs that pass and buffers that suffice.

use crate::calls::{Caller, Counted, Gave, Trimmed};
use crate::checks::{Check, Checked, Disagreement, Found};
use crate::counts::{Property, Shape};
use crate::random::Random;
use crate::reference::Subject;
use crate::rounds::{again, alike, copied, reported};
use crate::services::Services;
use crate::shapes::{self, Linked, any_pause, short_pause};
use crate::trimmed::{in_words, trimmed};
use crate::words::{END, FROM, Noted, TO, VOICES, episode, in_version, kind, number, word};

/// What the calls on one log gave.
pub struct Given {
    pub count: Counted,
    pub report: Gave,
    pub trimmed: Trimmed,
}

impl Given {
    pub fn by<S: Services>(caller: &mut Caller<S>, subject: &Subject, random: &mut Random) -> Checked<Given> {
        let count = caller.links(subject, random)?;
        let report = reported(caller, subject, random)?;
        Ok(Given { count, report, trimmed: trimmed(caller, subject, random)? })
    }

    /// Whether the calls on another log gave the same, word for word.
    pub fn same(&self, other: &Given) -> bool {
        let words = match (&self.report, &other.report) {
            (Gave::Report(_, one), Gave::Report(_, two)) | (Gave::Loop(one), Gave::Loop(two)) => one == two,
            _ => false,
        };
        words && self.count == other.count && self.trimmed == other.trimmed
    }
}

/// All properties, on one log that passes.
pub fn properties<S: Services>(caller: &mut Caller<S>, random: &mut Random) -> Checked<()> {
    let (shape, linked) = match random.below(2) {
        0 => (Shape::Loops, shapes::linked(Shape::Loops, random)),
        _ => shapes::passing(random),
    };
    caller.shape = Some(shape);
    let words = shapes::written(&linked, random);
    let mut found = Found::default();
    let [zero, one] = both_versions(caller, &words, &mut found, random)?;
    short_pauses(caller, &linked, &mut found, random)?;
    counted_alone(caller, &linked, &words, &one, &mut found, random)?;
    version_zero(caller, &linked, &zero, &mut found, random)?;
    if found.0.is_empty() {
        return Ok(());
    }
    Err(Box::new(Disagreement { service: "properties", found: found.0, lengths: String::new(), words, rest: Vec::new() }))
}

/// The log in both versions; what the calls gave comes back.
fn both_versions<S: Services>(
    caller: &mut Caller<S>,
    words: &[u32],
    found: &mut Found,
    random: &mut Random,
) -> Checked<[Given; 2]> {
    caller.counts.property(Property::BothVersions);
    let [zero, one] = [0, 1].map(|version| Subject::new(in_version(version, words.to_vec())));
    let copies = [copied(caller, &zero, random)?, copied(caller, &one, random)?];
    let differ_in_head = match &copies {
        [Ok(zero), Ok(one)] => !zero.is_empty() && zero != one && in_version(1, zero.clone()) == *one,
        _ => false,
    };
    found.ask(Check::VersionCopy, differ_in_head, || "the fair copies do not differ, or not in the head alone".into());

    let (zero, one) = (Given::by(caller, &zero, random)?, Given::by(caller, &one, random)?);
    let widths = match (&zero.report, &one.report) {
        (Gave::Report(zero, _), Gave::Report(one, _)) => {
            if one.width > zero.width {
                caller.counts.property(Property::Wider);
            }
            one.width >= zero.width
        }
        (Gave::Loop(_), Gave::Report(..)) => {
            caller.counts.property(Property::LoopGone);
            true
        }
        (Gave::Loop(_), Gave::Loop(_)) => true,
        _ => false,
    };
    let fewer = matches!((zero.count, one.count), (Ok(zero), Ok(one)) if one <= zero);
    found.ask(Check::VersionWidth, widths && fewer, || {
        format!("version 1 is narrower, or has a loop or links that version 0 has not: {:?}, {:?}", zero.count, one.count)
    });
    Ok([zero, one])
}

/// Without a pause above 360 both versions give the same.
fn short_pauses<S: Services>(caller: &mut Caller<S>, linked: &Linked, found: &mut Found, random: &mut Random) -> Checked<()> {
    caller.counts.property(Property::ShortPauses);
    let links = linked.links.iter().map(|&(from, to, _)| (from, to, short_pause(random))).collect();
    let words = shapes::written(&Linked { links, ..linked.clone() }, random);
    let [zero, one] = [0, 1].map(|version| Subject::new(in_version(version, words.clone())));
    let same = Given::by(caller, &zero, random)?.same(&Given::by(caller, &one, random)?);
    found.ask(Check::ShortPauses, same, || format!("not the same in version 0 for {}", in_words(&one)));
    Ok(())
}

/// The log of version 0 without the to words of links that do not count in version 1, and without groups that have no to
/// word left.
fn without_long(linked: &Linked, words: &[u32]) -> Vec<u32> {
    let counted = Linked { version: 1, ..linked.clone() }.counted();
    let (mut from, mut group, mut count) = (0, false, 0);
    let mut kept = vec![words[0]];
    for &given in &words[1..words.len() - 1] {
        match kind(given) {
            TO if counted.binary_search(&(from, episode(given))).is_ok() => {
                if !group {
                    kept.push(word(FROM, from));
                }
                kept.push(given);
                (group, count) = (true, count + 1);
            }
            TO => {}
            VOICES => kept.push(given),
            _ => (from, group) = (number(given), false),
        }
    }
    kept.push(word(END, count));
    in_version(0, kept)
}

/// A log of version 1 gives what its links that count give alone in version 0.
fn counted_alone<S: Services>(
    caller: &mut Caller<S>,
    linked: &Linked,
    words: &[u32],
    one: &Given,
    found: &mut Found,
    random: &mut Random,
) -> Checked<()> {
    let alone = Subject::new(without_long(linked, words));
    if alone.words.len() < words.len() {
        caller.counts.property(Property::CountedAlone);
    }
    let same = Given::by(caller, &alone, random)?.same(one);
    found.ask(Check::CountedAlone, same, || {
        format!("not in version 1 what the links that count give alone: {}", in_words(&alone))
    });
    Ok(())
}

/// In version 0 other pauses and other repeats leave width and apart set, or the loop, link count and trimmed copy.
fn version_zero<S: Services>(
    caller: &mut Caller<S>,
    linked: &Linked,
    zero: &Given,
    found: &mut Found,
    random: &mut Random,
) -> Checked<()> {
    caller.counts.property(Property::ZeroPauses);
    let mut links: Vec<Noted> = again(linked, random).links;
    links.iter_mut().for_each(|link| link.2 = any_pause(random));
    let other = Subject::new(shapes::written(&Linked { version: 0, links, ..linked.clone() }, random));
    let given = Given::by(caller, &other, random)?;
    let what = || format!("other pauses and repeats in version 0: {}", in_words(&other));
    found.ask(Check::SameReport, alike(&zero.report, &given.report), what);
    found.ask(Check::SameCount, zero.count == given.count, what);
    let trimmed = match (&zero.trimmed, &given.trimmed) {
        (Trimmed::Loop(_), Trimmed::Loop(_)) => true,
        (one, two) => one == two,
    };
    found.ask(Check::SameTrimmed, trimmed, what);
    Ok(())
}
