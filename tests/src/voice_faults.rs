//! The faults that have to do with voices: what they make of the words of a log, of refusals, reports, copies and threads.

use crate::checkers::Shown;
use crate::counts::Service;
use crate::faults::{Fault, shown_on};
use crate::reference::{Graph, copy_need, copy_words, furthest, in_order, parts, report_need, said};
use crate::services::{Answer, ReadAnswer, TextAnswer, ThreadAnswer};
use crate::words::{APART, END, FROM, MOST_VOICES, Said, VOICES, WIDTH, older};
use crate::words::{episode, episodes, kind, number, voices, voices_word, word};
use std::collections::BTreeMap;

/// An answer that can have a place in a log.
pub trait Placed {
    /// The place of a word of the log, counted with so many words more in front of it.
    fn move_on(&mut self, words: usize);
}

/// Whether a refusal's place is that of a word behind the head.
fn places_word(number: u32) -> bool {
    matches!(number, 4..=10 | 19..=21)
}

impl Placed for ReadAnswer {
    fn move_on(&mut self, words: usize) {
        self.place += if places_word(self.number) { words } else { 0 };
    }
}

impl Placed for TextAnswer {
    fn move_on(&mut self, words: usize) {
        self.value += if places_word(self.number) { words } else { 0 };
    }
}

impl Placed for Answer {
    fn move_on(&mut self, words: usize) {
        self.value += if places_word(self.number) { words } else { 0 };
    }
}

/// The voices words behind the head, whatever they say.
fn first_voices(log: &[u32]) -> &[u32] {
    let behind = log.get(1..log.len().saturating_sub(1)).unwrap_or(&[]);
    &behind[..behind.iter().take_while(|&&given| kind(given) == VOICES).count()]
}

/// The log with other voices words behind its head.
fn with_words(log: &[u32], voices: impl IntoIterator<Item = u32>) -> Vec<u32> {
    let mut words = vec![log[0]];
    words.extend(voices);
    words.extend(&log[1 + first_voices(log).len()..]);
    words
}

/// Of the voices words those that the choice keeps, from each with those before it.
fn kept(given: &[u32], keep: impl Fn(&[u32], u32) -> bool) -> Vec<u32> {
    (0..given.len()).filter(|&i| keep(&given[..i], given[i])).map(|i| given[i]).collect()
}

/// The last of the voices words that names the episode of this one.
fn named(before: &[u32], given: u32) -> Option<u32> {
    before.iter().rev().copied().find(|&word| episode(word) == episode(given))
}

/// The services that a fault is in, where it is in one alone.
fn is_in(fault: Fault, service: Service) -> bool {
    match fault {
        Fault::VoicesRead => service == Service::Read,
        Fault::VoicesLinks => service == Service::Links,
        Fault::VoicesReport
        | Fault::VoicesIgnored
        | Fault::VoicesShifted
        | Fault::VoicesFirst
        | Fault::VoicesLastWord
        | Fault::DoorsIgnored
        | Fault::DuetsIgnored
        | Fault::DoorsOut => service == Service::Report,
        Fault::VoicesFair => service == Service::FairCopy,
        Fault::VoicesTrim => service == Service::TrimmedCopy,
        Fault::TextVoices => service == Service::Text,
        _ => true,
    }
}

/// The log as the fault reads it, where it reads its voices words otherwise.
pub fn reread(fault: Fault, service: Service, log: &[u32]) -> Option<Vec<u32>> {
    if log.is_empty() || !is_in(fault, service) {
        return None;
    }
    let (n, given) = (episodes(log[0]), first_voices(log));
    let at_most_two = |word: u32| voices_word(episode(word), voices(word).min(MOST_VOICES));
    let words = match fault {
        Fault::VoicesLate | Fault::VoicesLateAll => return with_late(fault, log),
        Fault::TwentyLate if n == 121 => Vec::new(),
        Fault::TwentyUnasked if n > 120 => Vec::new(),
        Fault::TwentyOthers if n > 120 && given.iter().all(|&word| voices(word) == 1) => Vec::new(),
        Fault::SevenVoices if n <= 120 => kept(given, |_, word| episode(word) < n),
        Fault::SevenVoicesLow => given.iter().map(|&word| voices_word(episode(word) % 256, voices(word))).collect(),
        Fault::NineteenUnasked => given.iter().map(|&word| at_most_two(word)).collect(),
        Fault::NineteenThree => given.iter().map(|&word| if voices(word) == 3 { at_most_two(word) } else { word }).collect(),
        Fault::NineteenLow => given.iter().map(|&word| voices_word(episode(word), voices(word) % 4)).collect(),
        Fault::TwentyOneUnasked => kept(given, |before, word| named(before, word).is_none()),
        Fault::TwentyOneLast => {
            let last: BTreeMap<usize, u32> = given.iter().map(|&word| (episode(word), word)).collect();
            kept(given, |_, word| last[&episode(word)] == word)
        }
        Fault::TwentyOneSame => kept(given, |before, word| named(before, word) != Some(word)),
        Fault::TwentyOneOnes => {
            let open =
                |word: u32| voices(word) != 1 || given.iter().all(|&other| other == word || episode(other) != episode(word));
            kept(given, |_, word| open(word))
        }
        Fault::TwentyOneNext => {
            let beside = |before: &[u32], word: u32| before.last().is_some_and(|&last| episode(last) == episode(word));
            kept(given, |before, word| beside(before, word) || named(before, word).is_none())
        }
        Fault::VoicesRead
        | Fault::VoicesLinks
        | Fault::VoicesReport
        | Fault::VoicesFair
        | Fault::VoicesTrim
        | Fault::TextVoices => kept(given, |before, word| voices(word) <= MOST_VOICES && named(before, word).is_none()),
        _ => return heard_otherwise(fault, log),
    };
    (words != given).then(|| with_words(log, words))
}

/// The log with its late voices words behind the head, where it passes then. Those behind the first group may be the only ones.
fn with_late(fault: Fault, log: &[u32]) -> Option<Vec<u32>> {
    let (first, last) = (log.first()?, log.split_last().filter(|_| log.len() > 1)?);
    let behind = &last.1[1..];
    let is_voices = |word: &&u32| kind(**word) == VOICES;
    let late = |at: usize| kind(behind[at]) == VOICES && behind[..at].iter().any(|&word| kind(word) == FROM);
    let in_front = |at: usize| behind.get(at + 1).is_some_and(|&next| kind(next) == FROM);
    let lates: Vec<usize> = (0..behind.len()).filter(|&at| late(at)).collect();
    if lates.is_empty() || (fault == Fault::VoicesLateAll && !lates.iter().all(|&at| in_front(at))) {
        return None;
    }
    let mut words = vec![*first];
    words.extend(behind.iter().filter(is_voices));
    words.extend(behind.iter().filter(|word| !is_voices(word)));
    words.push(*last.0);
    in_order(&words).is_ok().then_some(words)
}

/// A log that passes as the report hears it with the fault.
fn heard_otherwise(fault: Fault, log: &[u32]) -> Option<Vec<u32>> {
    let read = in_order(log).ok()?;
    let (given, graph) = (first_voices(log), Graph::of(log));
    let taken_for_one = |count: usize| {
        let other = |&word: &u32| if voices(word) == count { voices_word(episode(word), 1) } else { word };
        given.iter().map(other).collect()
    };
    let words: Vec<u32> = match fault {
        Fault::VoicesIgnored => Vec::new(),
        Fault::VoicesShifted => {
            given.iter().map(|&word| voices_word((episode(word) + read.n - 1) % read.n, voices(word))).collect()
        }
        Fault::VoicesFirst => given.iter().take(1).copied().collect(),
        Fault::VoicesLastWord => given.split_last()?.1.to_vec(),
        Fault::DoorsIgnored => taken_for_one(0),
        Fault::DuetsIgnored => taken_for_one(2),
        Fault::DoorsOut => {
            let kept = graph.links.iter().filter(|link| graph.voices[link.0] > 0 && graph.voices[link.1] > 0).copied();
            let words = copy_words(0, &graph.voices, &older(&Vec::from_iter(kept)));
            return (words.len() <= log.len() && graph.voices.contains(&0)).then_some(words);
        }
        _ => return None,
    };
    (words != given).then(|| with_words(log, words))
}

/// Faults in a refusal, or in its absence.
pub fn refusal(fault: Fault, log: &[u32], given: u32, place: usize) -> (u32, usize) {
    let first = first_voices(log);
    let n = log.first().map_or(0, |&head| episodes(head));
    let read = in_order(log);
    let voices_words = read.map_or(0, |read| read.voices);
    let at = log.get(place).copied().unwrap_or(0);
    let before = || first.iter().take(place.saturating_sub(1)).any(|&word| episode(word) == episode(at));
    let says = |voices: usize| first.iter().position(|&word| self::voices(word) == voices);
    let is_voices = kind(at) == VOICES;
    match fault {
        Fault::VoicesRefused if !first.is_empty() && !matches!(given, 1 | 2 | 3 | 18) => (4, 1),
        Fault::VoicesNext if given == 6 && place + 2 < log.len() && kind(log[place + 1]) == VOICES => (4, place + 1),
        Fault::VoicesFive if given == 5 && kind(log[place - 1]) == VOICES => (4, place),
        Fault::VoicesEight if voices_words > 0 && read.is_ok_and(|read| read.links + read.voices > 4_096) => (8, log.len() - 2),
        Fault::VoicesTen if voices_words > 0 => (10, log.len() - 1),
        Fault::TwentyEarly if n == 120 && voices_words > 0 => (20, 1),
        Fault::TwentyPlace if given == 20 => (20, 0),
        Fault::TwentyHead if n > 120 && given == 0 => (20, 0),
        Fault::SevenFirst if given == 20 && episode(at) >= n => (7, place),
        Fault::NineteenFirst if given == 7 && is_voices && voices(at) > MOST_VOICES => (19, place),
        Fault::NineteenBeforeTwenty if given == 20 && voices(at) > MOST_VOICES => (19, place),
        Fault::NineteenTwo if voices_words > 0 && says(2).is_some() => (19, 1 + says(2).unwrap_or(0)),
        Fault::NineteenZero if voices_words > 0 && says(0).is_some() => (19, 1 + says(0).unwrap_or(0)),
        Fault::TwentyOneFirst if given == 19 && before() => (21, place),
        Fault::VoicesPlace if matches!(given, 19 | 21) => (given, episode(at)),
        Fault::VoicesOrder if voices_words > 0 => {
            let falls = first.windows(2).position(|two| episode(two[0]) > episode(two[1]));
            falls.map_or((given, place), |at| (21, 2 + at))
        }
        _ => (given, place),
    }
}

/// The report with a fault in its parts, or none where the fault does not apply to it.
pub fn altered(fault: Fault, graph: &Graph, mut shown: Shown) -> Option<Shown> {
    let duet = shown.apart.iter().position(|&member| graph.voices[member] == 2);
    let turn = |&member: &usize| std::iter::repeat_n(member, graph.voices[member]);
    // The number of each thread among those of its member.
    let rank = |i: usize, turns: &[usize]| usize::from(i > 0 && turns[i - 1] == turns[i]);
    match fault {
        Fault::LargestSet => {
            let other = shown_on(&copy_words(0, &vec![1; graph.n], &older(&graph.links)))?;
            (shown.width, shown.apart, shown.threads) = (other.width, other.apart, other.threads);
        }
        Fault::HeaviestLeastFar => {
            let other = furthest(&graph.with_one_voice());
            if graph.weight(&other) != shown.width {
                return None;
            }
            let holding = |member: &usize| -> Vec<Vec<usize>> {
                shown.threads.iter().filter(|thread| thread.contains(member)).cloned().collect()
            };
            shown.threads = other.iter().flat_map(holding).collect();
            shown.apart = other;
        }
        Fault::DoorMember => {
            let door = (0..graph.n).find(|&v| graph.voices[v] == 0)?;
            shown.apart.push(door);
            shown.apart.sort_unstable();
        }
        Fault::DuetOnce => {
            let member = shown.apart[duet?];
            let at = shown.threads.iter().rposition(|thread| thread.contains(&member))?;
            shown.threads.remove(at);
            shown.width -= 1;
        }
        Fault::DuetThird => {
            let member = shown.apart[duet?];
            let at = shown.threads.iter().rposition(|thread| thread.contains(&member))?;
            shown.threads.insert(at, shown.threads[at].clone());
            shown.width += 1;
        }
        Fault::DuetTwice => shown.apart.insert(duet?, shown.apart[duet?]),
        Fault::DuetOther => {
            let member = shown.apart[duet?];
            let at = shown.threads.iter().rposition(|thread| thread.contains(&member))?;
            let other = shown.threads.iter().find(|thread| !thread.contains(&member))?.clone();
            shown.threads[at] = other;
        }
        Fault::DuetLast => {
            let turns: Vec<usize> = shown.apart.iter().flat_map(turn).collect();
            let mut order: Vec<usize> = (0..shown.threads.len()).collect();
            order.sort_by_key(|&i| rank(i, &turns));
            shown.threads = order.into_iter().map(|i| shown.threads[i].clone()).collect();
        }
        Fault::ThreadsRotated if !shown.threads.is_empty() => shown.threads.rotate_left(1),
        Fault::MembersCounted => shown.width = shown.apart.len(),
        Fault::VoicesSummed => shown.width = graph.voices.iter().sum(),
        Fault::DoorCovered => {
            let door = (0..graph.n).find(|&v| graph.voices[v] == 0 && shown.threads.iter().all(|thread| !thread.contains(&v)))?;
            shown.threads.push(vec![door]);
            shown.width += 1;
        }
        Fault::DoorStepped => {
            let is_door = |&step: &usize| graph.voices[step] == 0;
            shown.threads.iter_mut().for_each(|thread| thread.retain(|step| !is_door(step)));
        }
        Fault::AllDoorsOne if graph.n > 0 && graph.voices.iter().all(|&voices| voices == 0) => {
            (shown.width, shown.threads) = (1, vec![vec![0]]);
        }
        _ => return None,
    }
    Some(shown)
}

/// Whether all steps of a loop are doors of the log, and all its other episodes too.
pub fn only_doors(log: &[u32], steps: &[u32]) -> bool {
    let graph = Graph::of(log);
    steps.iter().all(|&step| graph.voices[number(step)] == 0) && graph.voices.iter().all(|&voices| voices == 0)
}

/// The report words that the fault needs for a log.
pub fn report_needed(fault: Fault, log: &[u32]) -> Option<usize> {
    let read = in_order(log).ok()?;
    let ones = said(log).iter().all(|said| said.1 == 1);
    match fault {
        Fault::NeedPlain => Some(report_need(read.n, 0)),
        Fault::NeedVoices => Some(report_need(read.n, 1)),
        Fault::NeedOnes if ones => Some(report_need(read.n, 0)),
        _ => None,
    }
}

/// The copy's words that the fault needs for a log.
pub fn copy_needed(fault: Fault, service: Service, log: &[u32]) -> Option<usize> {
    let read = in_order(log).ok()?;
    let own = said(log).iter().filter(|said| said.1 != 1).count();
    match (fault, service) {
        (Fault::CopyVoicesNeed, Service::FairCopy) | (Fault::TrimVoicesNeed, Service::TrimmedCopy) => {
            Some(copy_need(read.links, 0))
        }
        (Fault::CopyVoicesOwn, Service::FairCopy) | (Fault::TrimVoicesOwn, Service::TrimmedCopy) => {
            Some(copy_need(read.links, own))
        }
        (Fault::CopyVoicesTwice, _) => Some(copy_need(read.links, 2 * read.voices)),
        _ => None,
    }
}

/// A fair or trimmed copy with a fault in its voices words.
pub fn altered_copy(fault: Fault, service: Service, log: &[u32], copy: &mut Vec<u32>) {
    use Service::{FairCopy as Fair, TrimmedCopy as Trimmed};
    let given: Vec<u32> = first_voices(copy).to_vec();
    let mut of_log = said(log);
    let swapped = |&word: &u32| voices_word(episode(word), MOST_VOICES - voices(word));
    let as_words = |said: &[Said]| said.iter().map(|&(episode, voices)| voices_word(episode, voices)).collect::<Vec<_>>();
    let words: Vec<u32> = match (fault, service) {
        (Fault::CopyVoices | Fault::CopyBehind, Fair) | (Fault::TrimVoices, Trimmed) => Vec::new(),
        (Fault::CopyOnes, Fair) | (Fault::TrimOnes, Trimmed) => {
            of_log.sort_unstable();
            as_words(&of_log)
        }
        (Fault::CopyEach, Fair) => as_words(&Vec::from_iter(Graph::of(log).voices.into_iter().enumerate())),
        (Fault::CopyGiven, Fair) | (Fault::TrimGiven, Trimmed) => {
            of_log.retain(|said| said.1 != 1);
            as_words(&of_log)
        }
        (Fault::CopyDoors, Fair) => given.iter().copied().filter(|&word| voices(word) == 0).collect(),
        (Fault::CopyDuets, Fair) => given.iter().copied().filter(|&word| voices(word) == 2).collect(),
        (Fault::CopyVoicesSwapped, Fair) => given.iter().map(swapped).collect(),
        _ => return,
    };
    *copy = with_words(copy, words);
    if fault == Fault::CopyBehind {
        let last = copy.len() - 1;
        copy.splice(last..last, given);
    }
}

/// A thread that was given, with a fault.
pub fn altered_thread(fault: Fault, words: &[u32], i: usize, given: ThreadAnswer) -> ThreadAnswer {
    let Ok(parts) = parts(words) else { return given };
    let refused = |number: u32| ThreadAnswer { number, start: 0, length: 0 };
    match fault {
        Fault::ApartEqual if parts.apart < parts.count() => refused(16),
        Fault::ApartNone if parts.apart == 0 => refused(16),
        Fault::ApartThreads if i >= parts.apart => refused(17),
        Fault::ApartStart => ThreadAnswer { start: given.start + parts.count() - parts.apart, ..given },
        _ => given,
    }
}

/// A thread of words that have one apart word more than threads.
pub fn one_apart_more(words: &[u32], i: usize) -> Option<ThreadAnswer> {
    if words.len() < 3 || kind(words[0]) != WIDTH || kind(words[1]) != APART {
        return None;
    }
    let mut fewer = words.to_vec();
    fewer.remove(1);
    let last = fewer.len() - 1;
    if kind(fewer[last]) != END || number(fewer[last]) != last + 1 {
        return None;
    }
    fewer[last] = word(END, last);
    let parts = parts(&fewer).ok().filter(|parts| parts.apart == parts.count())?;
    let (start, length) = parts.thread(i).ok()?;
    Some(ThreadAnswer { number: 0, start: start + 1, length })
}
