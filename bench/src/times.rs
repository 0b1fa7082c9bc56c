//! Times of the library and of the plain program, in one run. A round calls both on each log in turn; which of the two is first
//! changes from round to round.

use crate::checks;
use crate::services::{LINK_COUNT, REPORT, Service, TRIMMED_COPY};
use crate::shapes::{self, EPISODES, Shape, WORDS, log_of, random};
use std::hint::black_box;
use std::time::Instant;
use zohapy::WORK_WORDS;

/// A row of a table.
struct Row {
    name: String,
    words: usize,
    width: usize,
    /// How many links the trimmed copy keeps.
    kept: usize,
    /// How many different links there are.
    links: usize,
    log: Vec<u32>,
}

impl Row {
    /// The answers of both programs are checked here.
    fn new(name: String, log: Vec<u32>) -> Self {
        let words = checks::figures(&log).to_words;
        let (width, kept, links) = (checks::check_report(&log), checks::check_trimmed(&log), checks::check_count(&log));
        Row { name, words, width, kept, links, log }
    }

    fn random(name: String, episodes: usize, words: usize) -> Self {
        Row::new(name, log_of(episodes, &random(2, episodes, episodes, words)))
    }
}

/// The times of a row in microseconds: the library's and the plain program's.
#[derive(Default)]
struct Times([Vec<f64>; 2]);

pub fn least(times: &[f64]) -> f64 {
    times.iter().copied().fold(f64::INFINITY, f64::min)
}

/// The middle one, or the mean of the two in the middle.
pub fn middle(times: &[f64]) -> f64 {
    let mut sorted = times.to_vec();
    sorted.sort_by(f64::total_cmp);
    (sorted[(sorted.len() - 1) / 2] + sorted[sorted.len() / 2]) / 2.0
}

pub fn microseconds<T>(call: impl FnOnce() -> T) -> f64 {
    let start = Instant::now();
    black_box(call());
    start.elapsed().as_nanos() as f64 / 1000.0
}

fn measure(service: &Service, rows: &[&Row], rounds: usize) -> Vec<Times> {
    let needed = rows.iter().map(|row| (service.needed)(checks::figures(&row.log))).max();
    let mut out = vec![0; needed.unwrap_or(0)];
    let mut work = vec![0; WORK_WORDS];
    let mut all: Vec<Times> = rows.iter().map(|_| Times::default()).collect();
    for round in 0..rounds {
        for (row, Times(times)) in rows.iter().zip(&mut all) {
            let log = black_box(row.log.as_slice());
            for program in [round % 2, (round + 1) % 2] {
                let call = service.calls[program];
                let (out, work) = (black_box(&mut out), black_box(&mut work));
                times[program].push(microseconds(|| call(log, out, work)));
            }
        }
    }
    all
}

/// Prints a table. Behind the to words stands one more figure of each row.
fn print_table<'a>(
    first: &str,
    (third, figure): (&str, fn(&Row) -> usize),
    rows: &[Row],
    times: impl Iterator<Item = &'a Times>,
) {
    println!("\n| {first} | to words | {third} | library | plain | ratio | ratio of the least |");
    println!("|---|---|---|---|---|---|---|");
    for (row, Times([library, plain])) in rows.iter().zip(times) {
        println!(
            "| {} | {} | {} | {:.1} | {:.1} | {:.2} | {:.2} |",
            row.name,
            row.words,
            figure(row),
            middle(library),
            middle(plain),
            middle(library) / middle(plain),
            least(library) / least(plain)
        );
    }
}

/// The time of the clearing of the work words, which both programs do.
fn clearing(rounds: usize) -> f64 {
    let mut work = vec![7; WORK_WORDS];
    let times: Vec<f64> = (0..rounds).map(|_| microseconds(|| black_box(&mut work).fill(0))).collect();
    middle(&times)
}

/// The tables: what their first column is, and their rows. The first two are of shapes.
fn tables() -> [(&'static str, Vec<Row>); 4] {
    let rows = |shapes: Vec<Shape>| shapes.into_iter().map(|shape| Row::new(shape.name.into(), shape.log)).collect();
    let words = |n: usize| WORDS * n * (n - 1) / (EPISODES * (EPISODES - 1));
    let sizes = [25, 50, 100, 200].map(|n| Row::random(n.to_string(), n, words(n)));
    let counts = [512, 1024, 2048, 4096].map(|count| Row::random(EPISODES.to_string(), EPISODES, count));
    [
        ("shape, 200 episodes", rows(shapes::all())),
        ("shape with voices, 120 episodes", rows(shapes::with_voices())),
        ("episodes, random links at one density", sizes.into()),
        ("episodes, random links", counts.into()),
    ]
}

/// Measures a service on the rows of tables, and prints these. Behind the to words stands one more figure of each row.
fn print_tables(service: &Service, figure: (&str, fn(&Row) -> usize), tables: &[(&str, Vec<Row>)], rounds: usize) {
    let rows: Vec<&Row> = tables.iter().flat_map(|table| &table.1).collect();
    let times = measure(service, &rows, rounds);
    let mut times = times.iter();
    for (first, rows) in tables {
        print_table(first, figure, rows, &mut times);
    }
}

/// Prints the tables of times.
pub fn print(rounds: usize) {
    checks::check_small();
    let tables = tables();
    println!("Microseconds, the middle of {rounds} rounds; the ratio is library / plain.");
    println!("The clearing of the work words, which both do, takes {:.1} of them.", clearing(rounds));
    print_tables(&REPORT, ("width", |row| row.width), &tables, rounds);
    println!("\nThe same for the trimmed copy.");
    print_tables(&TRIMMED_COPY, ("links kept", |row| row.kept), &tables[..2], rounds);
    println!("\nThe same for the link count.");
    print_tables(&LINK_COUNT, ("links", |row| row.links), &tables[..2], rounds);
}
