//! Counts and lists as they stand in sentences.

/// A count with its noun.
pub fn counted(count: usize, noun: &str) -> String {
    format!("{count} {noun}{}", if count == 1 { "" } else { "s" })
}

/// Episodes with spaces between them.
pub fn listed(episodes: &[u32]) -> String {
    episodes.iter().map(u32::to_string).collect::<Vec<_>>().join(" ")
}

/// Episodes with commas between them, and `and` before the last.
pub fn in_words(episodes: &[u32]) -> String {
    match episodes {
        [first @ .., before, last] => {
            let first: String = first.iter().map(|episode| format!("{episode}, ")).collect();
            format!("{first}{before} and {last}")
        }
        _ => listed(episodes),
    }
}
