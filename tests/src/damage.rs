//! Damage done to words.

use crate::counts::Damage;
use crate::random::Random;
use crate::shapes::{MANY, any_pause, any_voices};
use crate::words::{FROM, LARGEST, LARGEST_PAUSE, MOST_VOICES, TO, VOICES};
use crate::words::{episode, episodes, head_word, kind, number, to_word, voices_word, word};

/// Damages a log in one way. A way that needs words that are not there leaves the log as it is.
pub fn to_log(words: &mut Vec<u32>, random: &mut Random) -> Damage {
    use Damage::*;
    let damage = random.weighted(&[
        (Kind, 6),
        (NumberStep, 4),
        (Number, 4),
        (Word, 3),
        (Removed, 4),
        (Added, 4),
        (Doubled, 3),
        (Swapped, 4),
        (Truncated, 4),
        (Emptied, 4),
        (Head, 3),
        (End, 6),
        (From, 3),
        (FirstFrom, 4),
        (Pause, 3),
        (PausedOut, 4),
        (FromBits, 4),
        (EndBits, 3),
        (VersionBit, 3),
        (Version, 3),
        (VersionMany, 3),
        (VersionKind, 3),
        (VoicesAdded, 3),
        (VoicesAgain, 6),
        (VoicesMany, 7),
        (VoicesOut, 5),
        (VoicesLate, 6),
        (VoicesLast, 4),
        (VoicesBefore, 3),
        (VoicesHead, 4),
    ]);
    do_damage(damage, words, random);
    damage
}

/// Damages a report's words, or others, in one way.
pub fn to_report(words: &mut Vec<u32>, random: &mut Random) {
    use Damage::*;
    let ways = [Kind, NumberStep, NumberStep, Number, Word, Removed, Added, Doubled, Swapped, Truncated, Emptied, Head, End, End];
    do_damage(*random.pick(&ways), words, random);
}

fn do_damage(damage: Damage, words: &mut Vec<u32>, random: &mut Random) {
    let length = words.len();
    if length == 0 {
        return;
    }
    let place = random.below(length);
    match damage {
        Damage::VoicesAdded
        | Damage::VoicesAgain
        | Damage::VoicesMany
        | Damage::VoicesOut
        | Damage::VoicesLate
        | Damage::VoicesLast
        | Damage::VoicesBefore
        | Damage::VoicesHead => voices_damage(damage, words, random),
        Damage::Kind => words[place] = word(random.below(16) as u32, number(words[place])),
        Damage::NumberStep => words[place] = stepped(words[place], random),
        Damage::Number => words[place] = word(kind(words[place]), any_number(random)),
        Damage::Word => words[place] = random.word(),
        Damage::Removed => {
            words.remove(place);
        }
        Damage::Added => {
            let kind = *random.pick(&[1, 2, 3, 4, 5, 6, 7, 8, 9, 10, 15]);
            let number = random.below(6) | if random.chance(1, 4) { high_bits(random) } else { 0 };
            words.insert(random.below(length + 1), word(kind, number));
        }
        Damage::Doubled => words.insert(place, words[place]),
        Damage::Swapped => words.swap(place, random.below(length)),
        Damage::Truncated => words.truncate(random.below(length)),
        Damage::Emptied => words.clear(),
        Damage::Head => words[0] = changed(words[0], random),
        Damage::End => words[length - 1] = changed(words[length - 1], random),
        Damage::From => {
            let at = if random.chance(1, 2) { length - 1 } else { place };
            let low = random.below(8);
            words.insert(at, word(FROM, *random.pick(&[low, low, episodes(words[0]), 255])));
        }
        Damage::FirstFrom => {
            if let Some(at) = words.iter().position(|&word| kind(word) == FROM) {
                words.remove(at);
            }
        }
        Damage::Pause => {
            if let Some(at) = any_of(TO, words, random) {
                words[at] = to_word(episode(words[at]), any_pause(random));
            }
        }
        Damage::PausedOut => {
            if let Some(at) = any_of(TO, words, random) {
                let (n, low) = (episodes(words[0]), episode(words[at]));
                let episode = *random.pick(&[n, n + 1, 255, 256, low | 256, low | 0x4000, low | 0x8000, low | 0x8000, 65_535]);
                words[at] = to_word(episode, 0) | word(0, high_bits(random));
            }
        }
        Damage::FromBits => {
            if let Some(at) = any_of(FROM, words, random) {
                words[at] |= word(0, high_bits(random));
            }
        }
        Damage::EndBits => {
            let at = if random.chance(1, 2) { 0 } else { length - 1 };
            words[at] |= word(0, high_bits(random));
        }
        Damage::VersionBit => words[0] ^= 1 << random.between(24, 27),
        Damage::Version => words[0] = word(kind(words[0]), number(head_word(random.below(16), episodes(words[0])))),
        Damage::VersionMany => words[0] = head_word(random.below(16), *random.pick(&MANY)),
        Damage::VersionKind => words[0] = word(random.below(16) as u32, number(head_word(random.below(16), random.below(260)))),
    }
}

/// Damage of voices words, or done with one. Where a voices word is needed and there is none, one is put behind the head.
fn voices_damage(damage: Damage, words: &mut Vec<u32>, random: &mut Random) {
    let n = episodes(words[0]);
    let any = voices_word(random.below(n.clamp(1, 200)), random.below(MOST_VOICES + 1));
    if matches!(damage, Damage::VoicesAdded | Damage::VoicesBefore | Damage::VoicesHead)
        || any_of(VOICES, words, random).is_none()
    {
        words.insert(1, any);
    }
    let at = any_of(VOICES, words, random).unwrap_or(0);
    let first = words.iter().position(|&word| kind(word) == FROM);
    match damage {
        Damage::VoicesAgain => {
            let other = [random.below(MOST_VOICES + 1), any_voices(random)].map(|voices| voices_word(episode(words[at]), voices));
            let again = [words[at], words[at], other[0], other[0], other[1]];
            words.insert(at + random.below(2), *random.pick(&again));
        }
        Damage::VoicesMany => words[at] = voices_word(episode(words[at]), any_voices(random)),
        Damage::VoicesOut => {
            let low = episode(words[at]);
            let out = [n, n, n + 1, 255, 256, low | 256, low | 0x4000, low | 0x8000, 65_535];
            let voices = if random.chance(1, 3) { any_voices(random) } else { random.below(MOST_VOICES + 1) };
            words[at] = voices_word(*random.pick(&out), voices);
        }
        Damage::VoicesLate => {
            let late = if let Some(first) = first { random.between(first + 1, words.len()) } else { words.len() };
            let late = late.min(words.len() - usize::from(random.chance(3, 4)));
            words.insert(late.max(1), any);
        }
        Damage::VoicesLast if random.chance(1, 2) => words.truncate(at + 1),
        Damage::VoicesLast => {
            words.pop();
            words.push(any);
        }
        Damage::VoicesBefore => {
            if let Some(first) = first {
                words.remove(first);
            }
        }
        Damage::VoicesHead => words[0] = word(kind(words[0]), number(head_word(random.below(2), random.between(119, 122)))),
        _ => {}
    }
}

/// The place of a word of this kind.
fn any_of(wanted: u32, words: &[u32], random: &mut Random) -> Option<usize> {
    let places: Vec<usize> = (0..words.len()).filter(|&at| kind(words[at]) == wanted).collect();
    if places.is_empty() { None } else { Some(*random.pick(&places)) }
}

/// A number that has some of the bits 16 to 27, and no other.
fn high_bits(random: &mut Random) -> usize {
    let bits = if random.chance(1, 2) { 1 << random.below(12) } else { random.between(1, LARGEST_PAUSE) };
    bits << 16
}

fn changed(given: u32, random: &mut Random) -> u32 {
    match random.below(3) {
        0 => word(random.below(16) as u32, number(given)),
        1 => word(kind(given), any_number(random)),
        _ => stepped(given, random),
    }
}

fn stepped(given: u32, random: &mut Random) -> u32 {
    let step = if random.chance(1, 2) { 1 } else { LARGEST };
    given & !LARGEST | given.wrapping_add(step) & LARGEST
}

fn any_number(random: &mut Random) -> usize {
    match random.below(4) {
        0 => LARGEST as usize,
        1 => random.word() as usize,
        _ => random.below(260),
    }
}
