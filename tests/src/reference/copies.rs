//! The links of a log with their least pauses, by two roads, and the words of a copy:
//! - `by_sorting`: the links are sorted with their pauses, and the first of each link is kept;
//! - `by_pairs`: for each two episodes, the least pause of all to words that link them.

use crate::words::{END, FROM, Noted, head_word, to_word, voices_word, word};

/// Each link once, with its least pause, rising.
pub fn by_sorting(noted: &[Noted]) -> Vec<Noted> {
    let mut sorted = noted.to_vec();
    sorted.sort_unstable();
    sorted.dedup_by_key(|&mut (from, to, _)| (from, to));
    sorted
}

/// The same, from the definition. Few episodes.
pub fn by_pairs(n: usize, noted: &[Noted]) -> Vec<Noted> {
    let mut links = Vec::new();
    for from in 0..n {
        for to in 0..n {
            let pauses = noted.iter().filter(|link| (link.0, link.1) == (from, to)).map(|link| link.2);
            links.extend(pauses.min().map(|least| (from, to, least)));
        }
    }
    links
}

/// The words of a copy of this version with these voices and links, which rise: a voices word for each episode that has not one
/// voice, and a group for each that has links.
pub fn copy_words(version: usize, voices: &[usize], links: &[Noted]) -> Vec<u32> {
    let mut words = vec![head_word(version, voices.len())];
    words.extend((0..voices.len()).filter(|&v| voices[v] != 1).map(|v| voices_word(v, voices[v])));
    for group in links.chunk_by(|one, next| one.0 == next.0) {
        words.push(word(FROM, group[0].0));
        words.extend(group.iter().map(|&(_, to, pause)| to_word(to, pause)));
    }
    words.push(word(END, links.len()));
    words
}
