//! The voices of the episodes of a log that passes: what its voices word says, and 1 without one. By two roads:
//! - `by_words`: each voices word, in the order of the log, sets the voices of its episode, which are 1 before;
//! - `by_episodes`: for each episode, the voices word that names it is sought.

use crate::words::Said;

/// The voices of each episode.
pub fn by_words(n: usize, said: &[Said]) -> Vec<usize> {
    let mut voices = vec![1; n];
    for &(episode, count) in said {
        voices[episode] = count;
    }
    voices
}

/// The same, from the definition. Few episodes.
pub fn by_episodes(n: usize, said: &[Said]) -> Vec<usize> {
    (0..n).map(|v| said.iter().find(|said| said.0 == v).map_or(1, |said| said.1)).collect()
}
