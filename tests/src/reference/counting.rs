//! The link count of a log that passes: how many different links that count its to words give, by two roads:
//! - `by_set`: the pairs of episodes go into a set;
//! - `by_all_pairs`: for each two episodes, in both orders, whether any to word links them so that the link counts.

use super::joining;
use crate::words::{LONGEST_COUNTED, Link, Noted};
use std::collections::BTreeSet;

/// How many different links count.
pub fn by_set(version: usize, noted: &[Noted]) -> usize {
    joining::by_words(version, noted).into_iter().collect::<BTreeSet<Link>>().len()
}

/// The same, from the definition. Few episodes.
pub fn by_all_pairs(version: usize, n: usize, noted: &[Noted]) -> usize {
    let joins = |pause: usize| version == 0 || pause <= LONGEST_COUNTED;
    let given = |link: &Link| noted.iter().any(|&(from, to, pause)| (from, to) == *link && joins(pause));
    (0..n * n).map(|i| (i / n, i % n)).filter(given).count()
}
