//! An older build of the library beside a newer one: both answer alike, and their times are taken in one run. A round makes each
//! call with both in turn; which of the two is first changes from round to round.

use crate::builds::{self, Build, Function, SERVICES};
use crate::shapes;
use crate::times::{least, microseconds, middle};
use std::hint::black_box;
use zohapy::{WORK_WORDS, head_version, kind};

/// How many rounds each pair of builds has.
const ROUNDS: usize = 301;

/// One of the calls: its service, by its place in [`SERVICES`], and its log with its key.
struct Call<'a> {
    service: usize,
    key: &'a str,
    log: &'a [u32],
}

/// Whether each version of the library takes a log that the newest takes: before 0.6.0 every log of version 1 was refused, and
/// before 0.7.0 every log with voices words.
fn is_for_each(log: &[u32]) -> bool {
    head_version(log[0]) == 0 && kind(log[1]) != 9
}

/// The logs that both builds take.
fn logs_for(pair: &[Build; 2]) -> Vec<(String, Vec<u32>)> {
    let mut logs = shapes::for_builds();
    logs.retain(|(_, log)| is_for_each(log) || pair.iter().all(|build| made(build[0], log).0[0] == 0));
    logs
}

/// Prints the keys of these logs.
pub fn print_keys(old: &str, new: &str) {
    logs_for(&[builds::open(old), builds::open(new)]).iter().for_each(|(key, _)| println!("{key}"));
}

/// Each service that both builds have on each log.
fn calls<'a>([old, new]: &[Build; 2], logs: &'a [(String, Vec<u32>)]) -> Vec<Call<'a>> {
    let services = 0..old.len().min(new.len());
    logs.iter().flat_map(|(key, log)| services.clone().map(move |service| Call { service, key, log })).collect()
}

/// An output and work words, more than enough for each call.
fn buffers() -> [Vec<u32>; 2] {
    [[crate::output(), vec![7; 16]].concat(), vec![7; WORK_WORDS + 16]]
}

/// What a call gives and leaves: the answer, the log, the output and the work words.
fn made(function: Function, log: &[u32]) -> ([usize; 4], [Vec<u32>; 3]) {
    let (log, [mut out, mut work]) = (log.to_vec(), buffers());
    let answer = function.call(&log, &mut out, &mut work);
    (answer, [log, out, work])
}

/// Stops where the older and the newer build differ in the answer or in any word, or refuse the log.
fn check([old, new]: &[Build; 2], &Call { service, key, log }: &Call) {
    let (old, new) = (made(old[service], log), made(new[service], log));
    assert!(old == new, "{} on {key}: the builds differ", SERVICES[service]);
    assert_eq!(old.0[0], 0, "{} on {key}: the log is refused", SERVICES[service]);
}

/// The middle times of a pair of builds for each call, in microseconds.
fn measure(pair: &[Build; 2], calls: &[Call]) -> Vec<[f64; 2]> {
    let [mut out, mut work] = buffers();
    let mut all: Vec<[Vec<f64>; 2]> = calls.iter().map(|_| Default::default()).collect();
    for round in 0..ROUNDS {
        for (&Call { service, log, .. }, times) in calls.iter().zip(&mut all) {
            for build in [round % 2, (round + 1) % 2] {
                let (log, out, work) = (black_box(log), black_box(&mut out), black_box(&mut work));
                times[build].push(microseconds(|| pair[build][service].call(log, out, work)));
            }
        }
    }
    all.iter().map(|[old, new]| [middle(old), middle(new)]).collect()
}

/// A row of the table: of the times of all pairs the middle ones, and of their ratios the middle, the lowest and the highest.
fn print_row(&Call { service, key, .. }: &Call, times: &[[f64; 2]]) {
    let figures = |figure: fn(&[f64; 2]) -> f64| times.iter().map(figure).collect::<Vec<_>>();
    let ratios = figures(|[old, new]| new / old);
    println!(
        "| {key} | {} | {:.1} | {:.1} | {:.2} | {:.2} | {:.2} |",
        SERVICES[service],
        middle(&figures(|times| times[0])),
        middle(&figures(|times| times[1])),
        middle(&ratios),
        least(&ratios),
        ratios.iter().copied().fold(0.0, f64::max)
    );
}

/// Prints the table of times. The paths are those of an older and a newer build, in turn.
pub fn print(paths: &[&str]) {
    let pairs: Vec<[Build; 2]> = paths.chunks(2).map(|pair| [builds::open(pair[0]), builds::open(pair[1])]).collect();
    let logs = logs_for(&pairs[0]);
    let calls = calls(&pairs[0], &logs);
    for pair in &pairs {
        assert!(builds::are_two(pair), "the older build is the newer one");
        calls.iter().for_each(|call| check(pair, call));
    }
    let measured: Vec<Vec<[f64; 2]>> = pairs.iter().map(|pair| measure(pair, &calls)).collect();
    println!("Microseconds, the middle of {ROUNDS} rounds, and of {} pairs of places; the ratio is new / old.", pairs.len());
    println!("\n| log | service | old | new | ratio | lowest | highest |");
    println!("|---|---|---|---|---|---|---|");
    for (i, call) in calls.iter().enumerate() {
        print_row(call, &measured.iter().map(|times| times[i]).collect::<Vec<_>>());
    }
}

/// One call of a build; nothing where there is no such service or log.
pub fn call(library: &str, service: &str, key: &str) -> Option<()> {
    let service = SERVICES.iter().position(|&name| name == service)?;
    let (_, log) = shapes::for_builds().into_iter().find(|log| log.0 == key)?;
    let [mut out, mut work] = buffers();
    black_box(builds::open(library).get(service)?.call(black_box(&log), &mut out, &mut work));
    Some(())
}

#[cfg(test)]
mod tests {
    use super::*;
    use crate::builds::{Answer, ReadAnswer};

    /// A service that writes to the last word of each buffer.
    unsafe extern "C" fn lending<const OUT: u32, const WORK: u32, const VALUE: usize>(
        _: *const u32,
        _: usize,
        out: *mut u32,
        out_words: usize,
        work: *mut u32,
        work_words: usize,
    ) -> Answer {
        // SAFETY: the pointers and the lengths are those of slices with a word or more.
        unsafe { (*out.add(out_words - 1), *work.add(work_words - 1)) = (OUT, WORK) };
        Answer { number: 0, value: VALUE }
    }

    /// Whether the check stops where the newer build's service is `OUT`, `WORK`, `VALUE` and the older one's 1, 2, 3.
    fn stops<const OUT: u32, const WORK: u32, const VALUE: usize>() -> bool {
        let pair = [vec![Function::Lending(lending::<1, 2, 3>)], vec![Function::Lending(lending::<OUT, WORK, VALUE>)]];
        std::panic::catch_unwind(|| check(&pair, &Call { service: 0, key: "", log: &[] })).is_err()
    }

    /// A reading that refuses version 1 where `NEWEST` is below 6, and voices words where it is below 7.
    unsafe extern "C" fn reading<const NEWEST: u32>(log: *const u32, _: usize) -> ReadAnswer {
        // SAFETY: the pointer is that of a slice with two words or more.
        let [head, next] = unsafe { [*log, *log.add(1)] };
        let refused = NEWEST < 6 && head_version(head) > 0 || NEWEST < 7 && kind(next) == 9;
        ReadAnswer { number: if refused { 3 } else { 0 }, place: 0, episodes: 0, links: 0 }
    }

    #[test]
    fn a_log_is_left_out_where_one_build_refuses_it() {
        let [oldest, older, newer] =
            [reading::<5>, reading::<6>, reading::<7>].map(|reading: unsafe extern "C" fn(_, _) -> _| Function::Reading(reading));
        let logs = |old, new| logs_for(&[vec![old], vec![new]]);
        let all = shapes::for_builds();
        assert_eq!(logs(newer, newer), all);
        let without_voices: Vec<_> = all.iter().filter(|(_, log)| kind(log[1]) != 9).cloned().collect();
        assert!(without_voices.len() + shapes::with_voices().len() == all.len());
        for (old, new) in [(older, newer), (newer, older), (older, older)] {
            assert_eq!(logs(old, new), without_voices);
        }
        let of_version_0: Vec<_> = without_voices.into_iter().filter(|(_, log)| head_version(log[0]) == 0).collect();
        for (old, new) in [(oldest, newer), (newer, oldest), (oldest, older), (oldest, oldest)] {
            assert_eq!(logs(old, new), of_version_0);
        }
    }

    #[test]
    fn a_service_that_one_build_lacks_is_left_out() {
        let [more, fewer] = [5, 4].map(|count| vec![Function::Lending(lending::<1, 2, 3>); count]);
        let logs = [("one".into(), vec![]), ("other".into(), vec![])];
        for pair in [[more.clone(), fewer.clone()], [fewer, more]] {
            let calls = calls(&pair, &logs);
            assert_eq!(calls.iter().map(|call| call.service).collect::<Vec<_>>(), [0, 1, 2, 3, 0, 1, 2, 3]);
        }
    }

    #[test]
    fn a_difference_is_seen() {
        assert!(!stops::<1, 2, 3>());
        assert!(stops::<4, 2, 3>());
        assert!(stops::<1, 4, 3>());
        assert!(stops::<1, 2, 4>());
    }
}
