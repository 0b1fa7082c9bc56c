//! The links of a log that passes that count: in version 0 all, in version 1 those whose least pause is at most 360. By two
//! roads:
//! - `by_words`: to words with a longer pause are passed over in version 1, and the links of the others count;
//! - `by_least`: each link with its least pause, from the definition, and those over a longer one are left out.

use super::copies::by_pairs;
use crate::words::{LONGEST_COUNTED, Link, Noted};

/// The links that count, in the order of the log, and with repeats.
pub fn by_words(version: usize, noted: &[Noted]) -> Vec<Link> {
    let joining = noted.iter().filter(|link| version == 0 || link.2 <= LONGEST_COUNTED);
    joining.map(|&(from, to, _)| (from, to)).collect()
}

/// The same links once, rising. Few episodes.
pub fn by_least(version: usize, n: usize, noted: &[Noted]) -> Vec<Link> {
    let mut links = by_pairs(n, noted);
    if version == 1 {
        links.retain(|&(_, _, least)| least <= LONGEST_COUNTED);
    }
    links.into_iter().map(|(from, to, _)| (from, to)).collect()
}
