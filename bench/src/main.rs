//! Measures the library beside a plain program.
//!
//! - `measurements times [ROUNDS]` checks the answers of both programs, and prints tables of times;
//! - `measurements call PROGRAM LOG` makes one call, for a count of its instructions;
//! - `measurements week FOLDER COUNT` writes so many logs of full size to a folder, the shapes in turn.
//!
//! And an older build of the library beside a newer one, each a shared object:
//!
//! - `measurements beside OLD NEW [OLD NEW ..]` checks that both answer alike, and prints a table of times. Several pairs are the
//!   same two builds at other places;
//! - `measurements logs OLD NEW` prints the names of the logs that both builds take;
//! - `measurements called LIBRARY SERVICE LOG` makes one call of such a build.

mod beside;
mod builds;
mod checks;
#[path = "../../tests/src/object.rs"]
mod object;
mod plain;
mod services;
mod shapes;
mod times;

use std::hint::black_box;
use zohapy::{MOST_WITH_VOICES, WORK_WORDS, copy_words_with_voices, report_words};

/// The log of a key: a shape's, the whole example, or `random-COUNT`.
fn log_named(key: &str) -> Option<Vec<u32>> {
    if key == "example" {
        return Some(shapes::log_of(5, &[(0, 1), (2, 3)]));
    }
    if let Some(count) = key.strip_prefix("random-") {
        return Some(shapes::log_of(200, &shapes::random(2, 200, 200, count.parse().ok()?)));
    }
    shapes::all().into_iter().chain(shapes::with_voices()).find(|shape| shape.key == key).map(|shape| shape.log)
}

/// An output that is long enough for every call.
fn output() -> Vec<u32> {
    vec![7; report_words(shapes::EPISODES).max(copy_words_with_voices(shapes::WORDS, MOST_WITH_VOICES))]
}

/// One call of the program that is named.
fn call(program: &str, log: &[u32]) -> Option<()> {
    let mut out = output();
    let mut work = vec![7; WORK_WORDS];
    match program {
        "read" => drop(black_box(zohapy::read(black_box(log)))),
        "report" => drop(black_box(zohapy::report(black_box(log), &mut out, &mut work))),
        "fair-copy" => drop(black_box(zohapy::fair_copy(black_box(log), &mut out, &mut work))),
        "trimmed-copy" => drop(black_box(zohapy::trimmed_copy(black_box(log), &mut out, &mut work))),
        "links" => drop(black_box(zohapy::link_count(black_box(log)))),
        "plain-report" => drop(black_box(plain::report(black_box(log), &mut out, &mut work))),
        "plain-trimmed-copy" => drop(black_box(plain::trimmed_copy(black_box(log), &mut out, &mut work))),
        "plain-links" => drop(black_box(plain::link_count(black_box(log)))),
        _ => return None,
    }
    Some(())
}

/// Writes logs of full size to a new folder: the shapes with 200 episodes and 4,096 to words in turn.
fn write_week(folder: &str, count: usize) -> std::io::Result<()> {
    std::fs::create_dir(folder)?;
    let full =
        shapes::all().into_iter().filter(|shape| zohapy::links(&shape.log).is_ok_and(|links| links.len() == shapes::WORDS));
    let logs: Vec<Vec<u8>> = full.map(|shape| zohapy::bytes_from_words(&shape.log)).collect();
    (0..count).try_for_each(|i| std::fs::write(format!("{folder}/{i:05}.log"), &logs[i % logs.len()]))
}

fn run(words: &[&str]) -> Option<()> {
    match words {
        ["times"] => times::print(3001),
        ["times", rounds] => times::print(rounds.parse().ok()?),
        ["call", program, key] => call(program, &log_named(key)?)?,
        ["week", folder, count] => write_week(folder, count.parse().ok()?).expect("the logs can be written"),
        ["beside", _, _, ..] if words.len() % 2 == 1 => beside::print(&words[1..]),
        ["logs", old, new] => beside::print_keys(old, new),
        ["called", library, service, key] => beside::call(library, service, key)?,
        _ => return None,
    }
    Some(())
}

fn main() {
    let words: Vec<String> = std::env::args().skip(1).collect();
    let words: Vec<&str> = words.iter().map(String::as_str).collect();
    if run(&words).is_none() {
        eprintln!("measurements times [ROUNDS] | measurements call PROGRAM LOG | measurements week FOLDER COUNT");
        eprintln!("PROGRAM: read report fair-copy trimmed-copy links plain-report plain-trimmed-copy plain-links");
        eprintln!("measurements beside OLD NEW [OLD NEW ..] | measurements logs OLD NEW");
        eprintln!("measurements called LIBRARY SERVICE LOG");
        eprintln!("SERVICE: read report fair-copy trimmed-copy links");
        std::process::exit(2);
    }
}
