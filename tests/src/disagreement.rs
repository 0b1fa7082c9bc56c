//! How a disagreement is shown.

use crate::checks::{Disagreement, name};
use crate::words::{bytes, hex};
use std::path::PathBuf;

/// The folder for files with logs: in the repository's build folder, if the run was started in the repository.
fn folder() -> PathBuf {
    let build = PathBuf::from("build");
    if build.is_dir() { build.join("disagreements") } else { std::env::temp_dir().join("disagreements") }
}

/// Writes bytes to a file of that name, and says where they are.
pub fn save(file: &str, content: &[u8]) -> String {
    let path = folder().join(file);
    match std::fs::create_dir_all(folder()).and_then(|()| std::fs::write(&path, content)) {
        Ok(()) => path.display().to_string(),
        Err(error) => format!("{} could not be written: {error}", path.display()),
    }
}

/// Prints the disagreement, and writes the words that came in to a file.
pub fn show(disagreement: &Disagreement, origin: &str) {
    let Disagreement { service, found, lengths, words, rest } = disagreement;
    println!("DISAGREEMENT in {service}, {origin}");
    for (check, what) in found {
        println!("  {}: {what}", name(*check));
    }
    if !lengths.is_empty() {
        println!("  lengths: {lengths}");
    }
    if words.len() <= 64 {
        println!("  words: {}", hex(words));
    }
    if !rest.is_empty() {
        println!("  bytes behind the words: {rest:02X?}");
    }
    let file: String =
        format!("{service}-{origin}.bin").chars().map(|c| if c.is_ascii_alphanumeric() || c == '.' { c } else { '-' }).collect();
    let what = if *service == "thread" { "report words" } else { "log" };
    println!("  {what} in the file: {}", save(&file, &[bytes(words), rest.clone()].concat()));
}
