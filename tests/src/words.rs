//! The words of logs and reports, and how logs are written from links.

use crate::random::Random;

pub const HEAD: u32 = 1;
pub const FROM: u32 = 2;
pub const TO: u32 = 3;
pub const WIDTH: u32 = 4;
pub const APART: u32 = 5;
pub const THREAD: u32 = 6;
pub const STEP: u32 = 7;
pub const LOOP: u32 = 8;
pub const VOICES: u32 = 9;
pub const END: u32 = 15;

/// The largest number that a word can have.
pub const LARGEST: u32 = 0x0FFF_FFFF;

/// How many episodes a to word or a voices word can name: its bits 0 to 15.
const EPISODES: usize = 65_536;

/// The largest pause that a to word can note, in minutes: its bits 16 to 27.
pub const LARGEST_PAUSE: usize = 4_095;

/// The longest pause with which a link of version 1 counts, in minutes.
pub const LONGEST_COUNTED: usize = 360;

/// The most voices that a voices word can give: its bits 16 to 27.
pub const LARGEST_VOICES: usize = 4_095;

/// The most voices that an episode can have.
pub const MOST_VOICES: usize = 2;

/// How many counts of episodes a head can give: its bits 0 to 23. Its bits 24 to 27 are the version.
const HEADS: usize = 1 << 24;

/// A link: from the first episode to the second.
pub type Link = (usize, usize);

/// A link as one to word gives it: from the first episode to the second, after a pause in minutes.
pub type Noted = (usize, usize, usize);

/// The voices of an episode as one voices word gives them: the episode, and how many voices.
pub type Said = (usize, usize);

pub fn word(kind: u32, number: usize) -> u32 {
    kind << 28 | (number as u32 & LARGEST)
}

pub fn kind(word: u32) -> u32 {
    word >> 28
}

pub fn number(word: u32) -> usize {
    (word & LARGEST) as usize
}

/// A to word: the later episode and the pause.
pub fn to_word(episode: usize, pause: usize) -> u32 {
    word(TO, pause * EPISODES + episode)
}

/// The later episode of a to word, or the episode of a voices word.
pub fn episode(given: u32) -> usize {
    number(given) % EPISODES
}

/// The pause of a to word.
pub fn pause(to: u32) -> usize {
    number(to) / EPISODES
}

/// A voices word: the episode and its voices.
pub fn voices_word(episode: usize, voices: usize) -> u32 {
    word(VOICES, voices * EPISODES + episode)
}

/// The voices of a voices word.
pub fn voices(given: u32) -> usize {
    number(given) / EPISODES
}

/// A head: the version, and how many episodes there are.
pub fn head_word(version: usize, n: usize) -> u32 {
    word(HEAD, version * HEADS + n)
}

/// The version in a head.
pub fn version(head: u32) -> usize {
    number(head) / HEADS
}

/// How many episodes a head gives.
pub fn episodes(head: u32) -> usize {
    number(head) % HEADS
}

/// The log with this version in its head.
pub fn in_version(version: usize, mut log: Vec<u32>) -> Vec<u32> {
    log[0] = head_word(version, episodes(log[0]));
    log
}

/// The log with these voices words behind its head.
pub fn with_voices(said: &[Said], mut log: Vec<u32>) -> Vec<u32> {
    log.splice(1..1, said.iter().map(|&(episode, voices)| voices_word(episode, voices)));
    log
}

/// The links as an older log gives them: without a pause.
pub fn older(links: &[Link]) -> Vec<Noted> {
    links.iter().map(|&(from, to)| (from, to, 0)).collect()
}

/// Four bytes to a word, the lowest first.
pub fn bytes(words: &[u32]) -> Vec<u8> {
    words.iter().flat_map(|word| word.to_le_bytes()).collect()
}

/// The words in hexadecimal, one space between them.
pub fn hex(words: &[u32]) -> String {
    words.iter().map(|word| format!("{word:08X}")).collect::<Vec<_>>().join(" ")
}

/// A log of version 0 with the links in the order given. A link goes into the group before it where it can, except in
/// `splits` of 16 cases.
pub fn log(n: usize, links: &[Noted], splits: usize, random: &mut Random) -> Vec<u32> {
    let mut words = vec![head_word(0, n)];
    let mut group = None;
    for &(from, to, pause) in links {
        if group != Some(from) || (splits > 0 && random.chance(splits, 16)) {
            words.push(word(FROM, from));
            group = Some(from);
        }
        words.push(to_word(to, pause));
    }
    words.push(word(END, links.len()));
    words
}

/// The words of a report, from its parts.
pub fn report(apart: &[usize], threads: &[Vec<usize>]) -> Vec<u32> {
    let mut words = vec![word(WIDTH, threads.len())];
    words.extend(apart.iter().map(|&member| word(APART, member)));
    for thread in threads {
        words.push(word(THREAD, thread.len()));
        words.extend(thread.iter().map(|&step| word(STEP, step)));
    }
    words.push(word(END, words.len()));
    words
}
