//! A round: one log, and calls of all services on it.

use crate::calls::{Caller, Copied, Counted, Gave, Lengths, Printed, TextLengths, Trimmed};
use crate::checkers::Shown;
use crate::checks::{Check, Checked, Disagreement};
use crate::counts::{Asked, Property};
use crate::damage;
use crate::lent::LONGEST_BYTES;
use crate::random::Random;
use crate::reference::{self, Graph, Input, MOST_BYTES, MOST_WITH_VOICES, Refusal, Subject, TEXT, WORK};
use crate::reference::{copy_need, in_order, loop_text, noted, parts, refusal_text, report_need, report_text};
use crate::services::{Door, ReadAnswer, Services};
use crate::shapes::{self, Linked, any_pause, long_pause, short_pause};
use crate::words::{LARGEST, LARGEST_PAUSE, LONGEST_COUNTED, Link, Noted, STEP, Said, TO, VOICES};
use crate::words::{bytes, head_word, kind, number, report, word};
use crate::{trimmed, versions, voices};

/// A round of the run. All of it follows from its seed.
pub fn round<S: Services>(caller: &mut Caller<S>, seed: u64) -> Checked<()> {
    let random = &mut Random::new(seed);
    caller.counts.rounds += 1;
    if random.chance(1, 12) {
        return properties(caller, random);
    }
    if random.chance(1, 14) {
        return trimmed::properties(caller, random);
    }
    if random.chance(1, 20) {
        return versions::properties(caller, random);
    }
    if random.chance(1, 24) {
        return voices::properties(caller, random);
    }
    if random.chance(1, 16) {
        return made_up(caller, random);
    }
    let made = shapes::any(random);
    for &damage in &made.damage {
        caller.counts.damage(damage);
    }
    caller.shape = Some(made.shape);
    let subject = Subject::new(made.words);
    caller.read(&subject, random)?;
    let _ = caller.links(&subject, random)?;
    let (report_need, copy_need) = match subject.reading {
        Ok(read) => (report_need(read.n, read.voices), copy_need(read.links, read.voices)),
        Err(_) => (random.between(0, 500), random.between(0, 500)),
    };
    for _ in 0..2 {
        let lengths = caller.lengths(copy_need, random);
        let _ = caller.fair_copy(&subject, lengths, random)?;
        let lengths = caller.lengths(copy_need, random);
        let _ = caller.trimmed_copy(&subject, lengths, random)?;
    }
    let mut whole = None;
    for _ in 0..2 {
        let lengths = caller.lengths(report_need, random);
        if let Gave::Report(shown, words) = caller.report(&subject, lengths, random)? {
            whole = Some((shown, words));
        }
    }
    for _ in 0..2 {
        texts(caller, &subject, report_need, random)?;
    }
    match whole {
        Some((shown, words)) if random.chance(1, if shown.width <= 24 { 5 } else { 20 }) => {
            all_threads(caller, &shown, words, random)
        }
        None if random.chance(1, 8) => other_words(caller, subject.words, random),
        _ => Ok(()),
    }
}

/// The text of a log: of its bytes, or of more or fewer bytes.
fn texts<S: Services>(caller: &mut Caller<S>, log: &Subject, need: usize, random: &mut Random) -> Checked<()> {
    let lengths = caller.text_lengths(need, random);
    let mut given = bytes(&log.words);
    match random.below(20) {
        0..=13 => return caller.text(&Input::new(given, log), lengths, random).map(drop),
        14 | 15 => given.truncate(given.len().saturating_sub(random.between(1, 4))),
        16 | 17 => given.extend((0..random.between(1, 4)).map(|_| random.word() as u8)),
        18 => given.resize(random.between(MOST_BYTES - 8, MOST_BYTES + 8), random.word() as u8),
        _ => {
            let near = random.between(MOST_BYTES - 4, MOST_BYTES + 4);
            let count = *random.pick(&[0, 1, 2, 3, MOST_BYTES, near, near, MOST_BYTES + 4, 40_001, LONGEST_BYTES]);
            given.resize(count, random.word() as u8);
        }
    }
    // Bytes that are not refused are those of another log, of no shape.
    let shape = caller.shape.take();
    let other = reference::bytes(&given).ok().filter(|words| *words != log.words).map(Subject::new);
    let printed = caller.text(&Input::new(given, other.as_ref().unwrap_or(log)), lengths, random);
    caller.shape = shape;
    printed.map(drop)
}

/// Numbers of threads that no report here has.
const HUGE: [usize; 5] = [usize::MAX, usize::MAX - 1, 1 << 28, 1 << 32, (1 << 32) + 1];

/// Every thread of a report, numbers behind the last, and the same of its words with damage.
fn all_threads<S: Services>(caller: &mut Caller<S>, shown: &Shown, mut words: Vec<u32>, random: &mut Random) -> Checked<()> {
    let k = shown.width;
    let mut wanted: Vec<usize> = (0..k + 2).collect();
    wanted.push(*random.pick(&HUGE));
    caller.threads(&words, &parts(&words), &wanted, Asked::Whole, random)?;
    let few = [random.below(k + 2), *random.pick(&[0, 1, k, usize::MAX])];
    if random.chance(1, 4) {
        let mut longer = words.clone();
        longer.extend((0..random.between(1, 4)).map(|_| random.word()));
        caller.threads(&longer, &parts(&longer), &few, Asked::Behind, random)?;
    }
    for _ in 0..2 {
        damage::to_report(&mut words, random);
        let all = k <= 8 && random.chance(1, 4);
        caller.threads(&words, &parts(&words), if all { &wanted } else { &few }, Asked::DamagedReport, random)?;
    }
    Ok(())
}

/// A layout with any numbers in it, whole and damaged.
fn made_up<S: Services>(caller: &mut Caller<S>, random: &mut Random) -> Checked<()> {
    let any = |random: &mut Random| match random.below(3) {
        0 => random.word() as usize & LARGEST as usize,
        _ => random.below(200),
    };
    let many = random.below(40);
    let k = random.weighted(&[(0, 1), (1, 2), (2, 3), (3, 3), (many, 1)]);
    let fewer = random.below(k + 1);
    let members = random.weighted(&[(k, 3), (fewer, 3), (0, 1)]);
    let apart: Vec<usize> = (0..members).map(|_| any(random)).collect();
    let thread = |random: &mut Random| (0..random.between(1, 4)).map(|_| any(random)).collect();
    let threads: Vec<Vec<usize>> = (0..k).map(|_| thread(random)).collect();
    let mut words = report(&apart, &threads);
    let wanted = [0, random.below(k + 1), k, k + 1, *random.pick(&HUGE)];
    let asked = if members < k { Asked::FewApart } else { Asked::MadeUp };
    caller.threads(&words, &parts(&words), &wanted, asked, random)?;
    // One apart word more than there are threads.
    if random.chance(1, 4) {
        let more = report(&vec![random.below(200); k + 1], &threads);
        caller.threads(&more, &parts(&more), &wanted[..2], Asked::DamagedLayout, random)?;
    }
    for _ in 0..random.between(1, 3) {
        damage::to_report(&mut words, random);
        caller.threads(&words, &parts(&words), &wanted[..2], Asked::DamagedLayout, random)?;
    }
    Ok(())
}

/// Words that are no report, or hardly ever.
fn other_words<S: Services>(caller: &mut Caller<S>, mut words: Vec<u32>, random: &mut Random) -> Checked<()> {
    if random.chance(1, 2) {
        let kinds = [4, 4, 5, 5, 6, 6, 7, 7, 8, 15];
        words = (0..random.below(7)).map(|_| word(*random.pick(&kinds), random.below(6))).collect();
    }
    let wanted = [0, random.below(4), usize::MAX];
    caller.threads(&words, &parts(&words), &wanted, Asked::OtherWords, random).map(drop)
}

/// The properties of reports, fair copies, link counts and threads across calls, on logs that pass and buffers that suffice.
pub fn properties<S: Services>(caller: &mut Caller<S>, random: &mut Random) -> Checked<()> {
    let (shape, linked) = shapes::passing(random);
    caller.shape = Some(shape);
    let first = Subject::new(shapes::written(&linked, random));
    let same = Subject::new(shapes::written(&again(&linked, random), random));

    caller.counts.property(Property::SameLinks);
    let copy = copied(caller, &first, random)?;
    let other = copied(caller, &same, random)?;
    let differ = |check, what: &str, subject: &Subject| {
        let found = vec![(check, what.to_string())];
        Err(Box::new(Disagreement {
            service: "properties",
            found,
            lengths: String::new(),
            words: subject.words.clone(),
            rest: Vec::new(),
        }))
    };
    if copy != other || copy.is_err() {
        return differ(Check::SameCopy, "the copies of two logs with the same links, least pauses and voices differ", &same);
    }
    let copy = copy.unwrap_or_default();
    let gave = reported(caller, &first, random)?;
    if !alike(&gave, &reported(caller, &same, random)?) {
        return differ(Check::SameReport, "the reports on two logs with the same links differ", &same);
    }

    caller.counts.property(Property::TextDoors);
    let one = texted(caller, Door::Rust, &first, random)?;
    if texted(caller, Door::C, &first, random)? != one {
        return differ(Check::BothDoors, "another text through the Rust wrapper than through the C header", &first);
    }
    caller.counts.property(Property::SameText);
    if settled(&texted(caller, Door::Rust, &same, random)?) != settled(&one) {
        return differ(Check::SameText, "the texts of two logs with the same links differ", &same);
    }

    caller.counts.property(Property::ReadBack);
    let back = Subject::new(copy.clone());
    let least: Vec<Noted> = linked.least().into_iter().map(|((from, to), pause)| (from, to, pause)).collect();
    let due = ReadAnswer { number: 0, place: 0, episodes: linked.n, links: least.len() };
    let head = head_word(linked.version, linked.n);
    let same_voices = |copy: &[u32]| Graph::of(copy).voices == linked.voices();
    if caller.read(&back, random)? != due
        || in_order(&copy).is_err()
        || (copy[0], noted(&copy)) != (head, least)
        || !same_voices(&copy)
    {
        return differ(Check::ReadBack, "the copy has another version, another n, other links, pauses or voices", &first);
    }

    caller.counts.property(Property::CopyOfCopy);
    let twice = copied(caller, &back, random)?;
    if twice.as_ref() != Ok(&copy) {
        return differ(Check::CopyOfCopy, "the copy of the copy is another", &first);
    }

    caller.counts.property(Property::Counted);
    let count = caller.links(&first, random)?;
    let reading = caller.read(&first, random)?;
    let most = reading.links;
    let counted = linked.counted().len();
    if count != Ok(counted) || due.links > most {
        let what = format!(
            "a link count of {count:?}, with {} to words in the copy, {counted} of links that count, and {most} in the log",
            due.links
        );
        return differ(Check::ReadCount, &what, &first);
    }
    own_text(caller, &first, (reading, &count, &gave), random)?;
    let others = [(&same, "the same links and least pauses"), (&back, "the links of the copy")];
    for (other, what) in others {
        if caller.links(other, random)? != count {
            return differ(Check::SameCount, &format!("{what}, and another link count"), other);
        }
    }
    caller.counts.property(Property::OtherPauses);
    let paused = Subject::new(shapes::written(&other_pauses(&linked, random), random));
    if caller.links(&paused, random)? != count {
        return differ(Check::SameCount, "other pauses, and another link count", &paused);
    }
    if !alike(&gave, &reported(caller, &paused, random)?) {
        return differ(Check::SameReport, "other pauses, and another report", &paused);
    }

    let known = |link: &Link| linked.links.iter().any(|&(from, to, _)| (from, to) == *link);
    let free = (0..8).map(|_| (random.below(linked.n.max(1)), random.below(linked.n.max(1)))).find(|link| !known(link));
    if let (Some((from, to)), true) = (free, linked.n > 0 && linked.links.len() < 4_096) {
        let pause = any_pause(random);
        let counts = linked.joins(pause);
        caller.counts.property(if counts { Property::LinkMore } else { Property::LongMore });
        let mut more = linked.clone();
        more.links.insert(random.below(more.links.len() + 1), (from, to, pause));
        let more = Subject::new(shapes::written(&more, random));
        if copied(caller, &more, random)?.is_ok_and(|other| other == copy) {
            return differ(Check::OtherCopy, "a link more, and the same copy", &more);
        }
        if caller.links(&more, random)? != Ok(counted + usize::from(counts)) {
            return differ(Check::OtherCount, "a link more, and not one more in the link count if it counts", &more);
        }
    }
    if linked.n < linked.most() {
        caller.counts.property(Property::EpisodeMore);
        let more = Subject::new(shapes::written(&Linked { n: linked.n + 1, ..linked.clone() }, random));
        if copied(caller, &more, random)?.is_ok_and(|other| other == copy) {
            return differ(Check::OtherCopy, "an episode more, and the same copy", &more);
        }
        if caller.links(&more, random)? != count {
            return differ(Check::SameCount, "an episode more, and another link count", &more);
        }
    }
    if let Some(paused) = other_pause(&linked, random) {
        let other = Subject::new(shapes::written(&paused, random));
        if copied(caller, &other, random)?.is_ok_and(|other| other == copy) {
            return differ(Check::OtherCopy, "another least pause, and the same copy", &other);
        }
        let now = paused.counted().len();
        let same = now == counted;
        caller.counts.property(if same { Property::OtherPause } else { Property::OverBorder });
        if caller.links(&other, random)? != Ok(now) {
            let check = if same { Check::SameCount } else { Check::OtherCount };
            return differ(check, &format!("another least pause, and a link count that is not {now}"), &other);
        }
        if same && !alike(&gave, &reported(caller, &other, random)?) {
            return differ(Check::SameReport, "another least pause, and another report", &other);
        }
        if same {
            match (trimmed::trimmed(caller, &first, random)?, trimmed::trimmed(caller, &other, random)?) {
                (Trimmed::Loop(_), Trimmed::Loop(_)) => {}
                (Trimmed::Copy(one), Trimmed::Copy(two)) if one == two => {}
                _ => return differ(Check::SameTrimmed, "another least pause, and another trimmed copy", &other),
            }
        }
    }

    if let Gave::Report(shown, words) = gave {
        caller.counts.property(Property::OwnThreads);
        let wanted: Vec<usize> = (0..=shown.threads.len()).collect();
        let stretches = caller.threads(&words, &parts(&words), &wanted, Asked::Whole, random)?;
        let steps = |thread: &Vec<usize>| Ok(thread.iter().map(|&step| word(STEP, step)).collect());
        let due: Vec<Result<Vec<u32>, u32>> = shown.threads.iter().map(steps).chain([Err(17)]).collect();
        if stretches != due {
            return differ(Check::OwnThreads, "the threads that come back are not those of the report", &first);
        }
    }
    Ok(())
}

/// The links with other pauses, so that the same ones count: any in version 0, and in version 1 on the same side of 360.
fn other_pauses(linked: &Linked, random: &mut Random) -> Linked {
    let mut other = |pause: usize| match (linked.version, pause > LONGEST_COUNTED) {
        (0, _) => any_pause(random),
        (_, true) => long_pause(random),
        (_, false) => short_pause(random),
    };
    Linked { links: linked.links.iter().map(|&(from, to, pause)| (from, to, other(pause))).collect(), ..linked.clone() }
}

/// Whether two calls gave the same width and apart set, or both a loop.
pub fn alike(one: &Gave, other: &Gave) -> bool {
    match (one, other) {
        (Gave::Loop(_), Gave::Loop(_)) => true,
        (Gave::Report(one, _), Gave::Report(other, _)) => (one.width, &one.apart) == (other.width, &other.apart),
        _ => false,
    }
}

/// Voices words that give the same voices, in another order; some that say 1 are there or not there.
fn said_again(linked: &Linked, random: &mut Random) -> Vec<Said> {
    let mut said: Vec<Said> = linked.voices().into_iter().enumerate().collect();
    let some = linked.n <= MOST_WITH_VOICES && random.chance(1, 2);
    said.retain(|said| said.1 != 1 || (some && random.chance(1, 2)));
    random.shuffle(&mut said);
    said
}

/// The same set of links with the same least pauses, with other repeats, and the same voices. Most of these have other pauses.
pub fn again(linked: &Linked, random: &mut Random) -> Linked {
    let least = linked.least();
    let longer = |pause: usize, random: &mut Random| match random.below(4) {
        0 => pause,
        1 => random.between(pause, LARGEST_PAUSE.min(pause + 3)),
        _ => random.between(pause, LARGEST_PAUSE),
    };
    // Where a to word has not the least pause, it can be left out, or have another pause.
    let mut links = Vec::new();
    for &(from, to, pause) in &linked.links {
        let least = least[&(from, to)];
        match random.below(4) {
            0 if pause > least => {}
            1 | 2 if pause > least => links.push((from, to, longer(least, random))),
            _ => links.push((from, to, pause)),
        }
    }
    let room = 4_096 - links.len();
    if !links.is_empty() {
        for _ in 0..random.between(0, links.len().min(room).min(40)) {
            let (from, to, pause) = *random.pick(&linked.links);
            links.push((from, to, longer(pause, random)));
        }
        random.shuffle(&mut links);
    }
    Linked { links, said: said_again(linked, random), ..*linked }
}

/// The same set of links, one of them with another least pause: its to words below a longer pause are raised to it, or
/// one of them gets a shorter pause.
fn other_pause(linked: &Linked, random: &mut Random) -> Option<Linked> {
    let mut links = linked.links.clone();
    if links.is_empty() {
        return None;
    }
    let at = random.below(links.len());
    let (from, to, _) = links[at];
    let least = linked.least()[&(from, to)];
    if least == 0 || (least < LARGEST_PAUSE && random.chance(1, 2)) {
        let longer = if random.chance(1, 2) { least + 1 } else { random.between(least + 1, LARGEST_PAUSE) };
        for link in links.iter_mut().filter(|link| (link.0, link.1) == (from, to)) {
            link.2 = link.2.max(longer);
        }
    } else {
        links[at].2 = if random.chance(1, 2) { least - 1 } else { random.below(least) };
    }
    Some(Linked { links, ..linked.clone() })
}

/// A text call on a log, on buffers that suffice.
pub fn texted<S: Services>(caller: &mut Caller<S>, door: Door, log: &Subject, random: &mut Random) -> Checked<Printed> {
    let others = Lengths { out: report_need(200, 0) + random.below(3), work: WORK + random.below(3) };
    caller.text_by(door, &Input::of(log), TextLengths { text: TEXT + random.below(3), others }, random)
}

/// The text of a log says what its reading, its link count and its report gave.
pub fn own_text<S: Services>(
    caller: &mut Caller<S>,
    subject: &Subject,
    (reading, count, report): (ReadAnswer, &Counted, &Gave),
    random: &mut Random,
) -> Checked<()> {
    let (property, number, value, text) = match report {
        Gave::Refused(..) => {
            let ReadAnswer { number, place, .. } = reading;
            (Property::OwnRefusal, number, place, refusal_text(Refusal { number, place }))
        }
        Gave::Loop(words) => {
            let steps: Vec<usize> = words.iter().skip(1).map(|&step| number(step)).collect();
            (Property::OwnLoop, 13, steps.len(), loop_text(&steps))
        }
        Gave::Report(shown, words) => {
            let text = report_text(reading.episodes, count.unwrap_or(0), shown);
            (Property::OwnReport, 0, words.len(), text)
        }
    };
    // Logs that are refused can have more bytes than a log may have.
    if 4 * subject.words.len() > MOST_BYTES {
        return Ok(());
    }
    caller.counts.property(property);
    let door = if random.chance(1, 2) { Door::C } else { Door::Rust };
    let printed = texted(caller, door, subject, random)?;
    if printed == (Printed { number, value, text }) {
        return Ok(());
    }
    let found = vec![(Check::OwnText, format!("another text than what is given for the same log: {printed:?}"))];
    let (words, rest) = (subject.words.clone(), Vec::new());
    Err(Box::new(Disagreement { service: "properties", found, lengths: String::new(), words, rest }))
}

/// The number of a text, and its lines but for threads and loop.
fn settled(printed: &Printed) -> (u32, Vec<&str>) {
    let lines = printed.text.split_inclusive('\n').filter(|line| !line.starts_with("thread") && !line.starts_with("loop"));
    // The loop that is shown can be longer or shorter.
    (printed.number, lines.filter(|_| printed.number != 13).collect())
}

pub fn copied<S: Services>(caller: &mut Caller<S>, subject: &Subject, random: &mut Random) -> Checked<Copied> {
    let lengths = copy_lengths(subject, random);
    caller.fair_copy(subject, lengths, random)
}

/// Lengths that suffice for a copy.
pub fn copy_lengths(subject: &Subject, random: &mut Random) -> Lengths {
    let words = |wanted: u32| subject.words.iter().filter(|&&given| kind(given) == wanted).count();
    Lengths { out: copy_need(words(TO), words(VOICES)) + random.below(3), work: WORK + random.below(3) }
}

pub fn reported<S: Services>(caller: &mut Caller<S>, subject: &Subject, random: &mut Random) -> Checked<Gave> {
    let lengths = Lengths { out: report_need(200, 0) + random.below(3), work: WORK + random.below(3) };
    caller.report(subject, lengths, random)
}
