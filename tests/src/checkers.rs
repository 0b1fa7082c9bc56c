//! The checkers of what is free, a report's parts and a loop, and of the ways of a trimmed copy. They take the graph and
//! what is expected, and nothing from the library.

use crate::checks::{Check, Found};
use crate::reference::{Graph, Reading, in_order, noted};
use crate::words::{APART, END, LOOP, STEP, THREAD, WIDTH, kind, number, version};

/// A report taken apart, by the kinds of its words alone.
#[derive(Clone, Debug, PartialEq, Eq)]
pub struct Shown {
    pub width: usize,
    pub apart: Vec<usize>,
    pub threads: Vec<Vec<usize>>,
}

/// The layout: kind 4, words of kind 5, threads with their lengths, and the end with the count of the words before
/// it. Whether there are as many of each as kind 4 says is asked elsewhere.
pub fn layout(words: &[u32]) -> Result<Shown, String> {
    let Some((&end, words)) = words.split_last() else { return Err("no words".into()) };
    let Some((&first, mut rest)) = words.split_first() else { return Err("one word".into()) };
    if kind(first) != WIDTH {
        return Err(format!("word 0 is {first:08X}"));
    }
    if kind(end) != END || number(end) != words.len() {
        return Err(format!("the end is {end:08X} behind {} words", words.len()));
    }
    let members = rest.iter().take_while(|&&word| kind(word) == APART).count();
    let apart = rest[..members].iter().map(|&word| number(word)).collect();
    rest = &rest[members..];
    let mut threads = Vec::new();
    while let Some((&head, behind)) = rest.split_first() {
        let steps = behind.iter().take_while(|&&word| kind(word) == STEP).count();
        if kind(head) != THREAD || number(head) == 0 || number(head) != steps {
            return Err(format!("word {} is {head:08X}, and {steps} steps follow", words.len() - rest.len()));
        }
        threads.push(behind[..steps].iter().map(|&word| number(word)).collect());
        rest = &behind[steps..];
    }
    Ok(Shown { width: number(first), apart, threads })
}

/// All that holds of a report on the graph whose furthest apart set is given.
pub fn report(shown: &Shown, graph: &Graph, furthest: &[usize], found: &mut Found) {
    let Shown { width, apart, threads } = shown;
    let due = graph.weight(furthest);
    found.ask(Check::Width, *width == due, || format!("kind 4 says {width}, the width is {due}"));
    let voices: usize = apart.iter().map(|&member| graph.voices.get(member).unwrap_or(&0)).sum();
    let equal = voices == threads.len() && voices == *width;
    found.ask(Check::EqualSizes, equal, || format!("{voices} voices, {} threads, kind 4 says {width}", threads.len()));
    if let Some(what) = not_apart(apart, graph) {
        found.say(Check::Apart, || what);
    }
    let door = apart.iter().find(|&&member| graph.voices.get(member) == Some(&0));
    found.ask(Check::Voiced, door.is_none(), || format!("the member {door:?} has no voices"));
    found.ask(Check::Rising, apart.is_sorted(), || format!("the members are {apart:?}"));
    if let Some(what) = no_cover(threads, graph) {
        found.say(Check::Cover, || what);
    }
    members_passed(shown, graph, found);
    found.ask(Check::Furthest, apart == furthest, || format!("the members are {apart:?}, the furthest are {furthest:?}"));
}

/// The members on the threads: each on as many as it has voices, and the threads in the members' order.
fn members_passed(shown: &Shown, graph: &Graph, found: &mut Found) {
    let Shown { apart, threads, .. } = shown;
    for &member in apart.iter().filter(|&&member| member < graph.n) {
        let (passed, voices) = (threads.iter().filter(|thread| thread.contains(&member)).count(), graph.voices[member]);
        found.ask(Check::Passed, passed == voices, || format!("{passed} threads pass {member}, which has {voices} voices"));
    }
    let mut turns = apart.iter().flat_map(|&member| std::iter::repeat_n(member, *graph.voices.get(member).unwrap_or(&0)));
    for (i, thread) in threads.iter().enumerate() {
        let held: Vec<usize> = thread.iter().copied().filter(|step| apart.contains(step)).collect();
        let turn = turns.next();
        found.ask(Check::Paired, held.len() == 1 && turn == Some(held[0]), || {
            format!("thread {i} holds the members {held:?}, its own is {turn:?}")
        });
    }
}

fn not_apart(members: &[usize], graph: &Graph) -> Option<String> {
    if let Some(member) = members.iter().find(|&&member| member >= graph.n) {
        return Some(format!("{member} is no episode"));
    }
    for (i, &member) in members.iter().enumerate() {
        if members[..i].contains(&member) {
            return Some(format!("{member} is there twice"));
        }
        let ways = graph.ways_from(member);
        if let Some(other) = members.iter().find(|&&other| ways[other]) {
            return Some(format!("{member} has a way to {other}"));
        }
    }
    None
}

/// What keeps the threads from being a cover.
pub fn no_cover(threads: &[Vec<usize>], graph: &Graph) -> Option<String> {
    let mut held = vec![0; graph.n];
    for (i, thread) in threads.iter().enumerate() {
        if thread.is_empty() {
            return Some(format!("thread {i} is empty"));
        }
        for &step in thread {
            if step >= graph.n {
                return Some(format!("{step} is no episode"));
            }
            held[step] += 1;
        }
        if let Some(pair) = thread.windows(2).find(|pair| !graph.linked(pair[0], pair[1])) {
            return Some(format!("thread {i} goes from {} to {} without a link", pair[0], pair[1]));
        }
    }
    // An episode that is twice on one thread is on a loop, of which there is none here.
    let left = (0..graph.n).find(|&v| held[v] < graph.voices[v])?;
    Some(format!("{left} is on {} threads and has {} voices", held[left], graph.voices[left]))
}

/// The episodes of a loop's words: kind 8 with the length, then as many steps.
pub fn loop_steps(words: &[u32]) -> Result<Vec<usize>, String> {
    let Some((&head, steps)) = words.split_first() else { return Err("no words".into()) };
    if kind(head) != LOOP || number(head) != steps.len() {
        return Err(format!("word 0 is {head:08X}, the place is {}", steps.len()));
    }
    if let Some(word) = steps.iter().find(|&&word| kind(word) != STEP) {
        return Err(format!("{word:08X} is no step"));
    }
    Ok(steps.iter().map(|&word| number(word)).collect())
}

/// Whether the episodes are a loop of the graph, written from the smallest.
pub fn not_a_loop(steps: &[usize], graph: &Graph) -> Option<String> {
    let (Some(&first), Some(&last)) = (steps.first(), steps.last()) else { return Some("no episode".into()) };
    for (i, &step) in steps.iter().enumerate() {
        if step >= graph.n {
            return Some(format!("{step} is no episode"));
        }
        if steps[..i].contains(&step) {
            return Some(format!("{step} is there twice"));
        }
        if step < first {
            return Some(format!("{first} is not the smallest of {steps:?}"));
        }
    }
    let pair = |pair: &&[usize]| !graph.linked(pair[0], pair[1]);
    if let Some(pair) = steps.windows(2).find(pair) {
        return Some(format!("{} is not linked to {}", pair[0], pair[1]));
    }
    (!graph.linked(last, first)).then(|| format!("{last} is not linked to {first}"))
}

/// What keeps the words from being a log of version 0 with the episodes, the voices and the ways of the graph, without repeats,
/// pauses and loops.
pub fn no_same_ways(words: &[u32], graph: &Graph) -> Option<String> {
    let Reading { n, links, voices } = match in_order(words) {
        Ok(read) => read,
        Err(refusal) => return Some(format!("the trimmed copy is refused {} at {}", refusal.number, refusal.place)),
    };
    if version(words[0]) != 0 {
        return Some(format!("the trimmed copy is of version {}", version(words[0])));
    }
    let copy = Graph::of(words);
    if n != graph.n {
        return Some(format!("{n} episodes instead of {}", graph.n));
    }
    if copy.voices != graph.voices || voices != graph.voices.iter().filter(|&&voices| voices != 1).count() {
        return Some(format!("{voices} voices words, and the voices {:?} instead of {:?}", copy.voices, graph.voices));
    }
    if copy.links.len() != links {
        return Some(format!("{links} to words for {} links", copy.links.len()));
    }
    if let Some((from, to, pause)) = noted(words).into_iter().find(|link| link.2 > 0) {
        return Some(format!("the trimmed copy has a pause of {pause} on {from}-{to}"));
    }
    if copy.has_loop() {
        return Some("the trimmed copy has a loop".into());
    }
    let other = (0..n).find(|&v| copy.ways_from(v) != graph.ways_from(v))?;
    Some(format!("{other} has other ways in the trimmed copy"))
}
