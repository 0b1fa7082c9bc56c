//! Runs: the cases and the random calls, in one or more threads; one round again; and the faults.

use crate::Wanted;
use crate::beside::{Beside, Older};
use crate::calls::Caller;
use crate::checks::{CHECKS, Check, Checked, Disagreement, name};
use crate::counts::{Counts, grouped};
use crate::faults::{FAULTS, Faulty};
use crate::model::Model;
use crate::random::{Random, round_seed};
use crate::services::{Library, Services};
use crate::{cases, disagreement, program, rounds, trimmed, versions, voices};
use std::panic::{AssertUnwindSafe, catch_unwind};
use std::sync::atomic::{AtomicBool, Ordering};
use std::time::Instant;

pub const DEFAULT_CALLS: u64 = 150_000;
/// How often everything that is counted has to be met, in a run of the default number of calls or more.
const FLOOR: u64 = 50;

/// Makes calls. A panic, as of the wrapper or of a reference that disagrees with another, is a disagreement too.
fn guarded<S: Services>(caller: &mut Caller<S>, make: impl FnOnce(&mut Caller<S>) -> Checked<()>) -> Checked<()> {
    let made = catch_unwind(AssertUnwindSafe(|| make(caller)));
    made.unwrap_or_else(|_| {
        let found = vec![(Check::Ends, "a panic, whose message stands above".to_string())];
        Err(Box::new(Disagreement {
            service: "round",
            found,
            lengths: String::new(),
            words: caller.words().to_vec(),
            rest: caller.rest(),
        }))
    })
}

/// Rounds until the calls are made, or another thread has found something.
fn random_calls(services: impl Services, calls: u64, seed: u64, thread: usize, stop: &AtomicBool) -> (Counts, bool) {
    let mut caller = Caller::new(services);
    let mut index = 0;
    while caller.counts.calls < calls && !stop.load(Ordering::Relaxed) {
        let round = round_seed(seed, thread, index);
        if let Err(found) = guarded(&mut caller, |caller| rounds::round(caller, round)) {
            stop.store(true, Ordering::Relaxed);
            disagreement::show(&found, &format!("seed {seed} thread {thread} round {round}"));
            return (caller.counts, false);
        }
        index += 1;
    }
    (caller.counts, true)
}

/// The cases, then the random calls, then the table; beside an older build where one is given.
pub fn checks(wanted: &Wanted) -> bool {
    match (wanted.older, wanted.model) {
        (Some(older), false) => checks_of(wanted, || Beside::new(Library, older)),
        (Some(older), true) => checks_of(wanted, || Beside::new(Model, older)),
        (None, false) => checks_of(wanted, || Library),
        (None, true) => checks_of(wanted, || Model),
    }
}

fn checks_of<S: Services>(wanted: &Wanted, services: impl Fn() -> S + Sync) -> bool {
    let mut caller = Caller::new(services());
    if let Err(found) = guarded(&mut caller, cases::all) {
        disagreement::show(&found, "a case");
        return false;
    }
    println!("cases: {} calls, all as worked out", grouped(caller.counts.calls));

    let begun = Instant::now();
    let stop = AtomicBool::new(false);
    let threads = wanted.threads as u64;
    let results: Vec<(Counts, bool)> = std::thread::scope(|scope| {
        let share = |thread: u64| wanted.calls / threads + u64::from(thread < wanted.calls % threads);
        let (stop, services) = (&stop, &services);
        let start =
            |thread: u64| scope.spawn(move || random_calls(services(), share(thread), wanted.seed, thread as usize, stop));
        let running: Vec<_> = (0..threads).map(start).collect();
        running.into_iter().map(|thread| thread.join().expect("a thread ends")).collect()
    });
    let seconds = begun.elapsed().as_secs_f64();
    let mut counts = Counts::new();
    for (part, _) in &results {
        counts.add(part);
    }
    if !results.iter().all(|result| result.1) {
        println!("failed after {} calls", grouped(counts.calls));
        return false;
    }
    counts.print();
    println!(
        "{} calls in {} rounds, seed {}, threads {}: no disagreement. {seconds:.1} seconds, {} calls a second",
        grouped(counts.calls),
        grouped(counts.rounds),
        wanted.seed,
        wanted.threads,
        grouped((counts.calls as f64 / seconds) as u64),
    );
    if let Some(older) = wanted.older {
        if counts.beside.is_empty() {
            println!("nothing was compared with the older build");
            return false;
        }
        counts.beside.print();
        if !older.counts_links() {
            println!("the older build has no link count, so these calls were not compared");
        }
        if !older.prints() {
            println!("the older build has no text, so these calls were not compared");
        }
        if !older.has_versions() {
            println!("the older build has no versions, so calls on logs of another version than 0 were not compared");
        }
        if !older.has_voices() {
            println!("the older build has no voices, so calls on logs with a voices word behind the head were not compared");
        }
    }
    if wanted.calls < DEFAULT_CALLS {
        println!("fewer than {} calls: it is not asked how often everything was met", grouped(DEFAULT_CALLS));
        return true;
    }
    let missing = counts.missing(FLOOR);
    for missing in &missing {
        println!("met fewer than {FLOOR} times: {missing}");
    }
    if missing.is_empty() {
        println!("everything that is counted was met at least {FLOOR} times");
    }
    missing.is_empty()
}

/// One round again.
pub fn one_round(seed: u64, wanted: &Wanted) -> bool {
    match (wanted.older, wanted.model) {
        (Some(older), false) => round_of(Beside::new(Library, older), seed),
        (Some(older), true) => round_of(Beside::new(Model, older), seed),
        (None, false) => round_of(Library, seed),
        (None, true) => round_of(Model, seed),
    }
}

fn round_of(services: impl Services, seed: u64) -> bool {
    let mut caller = Caller::new(services);
    match guarded(&mut caller, |caller| rounds::round(caller, seed)) {
        Ok(()) => {
            println!("round {seed}: {} calls, no disagreement", caller.counts.calls);
            true
        }
        Err(found) => {
            disagreement::show(&found, &format!("round {seed}"));
            false
        }
    }
}

/// Calls with one fault, so that it can be seen how a disagreement is shown.
pub fn one_fault(index: usize, model: bool) -> bool {
    let Some(&(fault, what)) = FAULTS.get(index) else {
        println!("there are {} faults, from 0", FAULTS.len());
        return false;
    };
    println!("a deliberate fault: {what}");
    let stop = AtomicBool::new(false);
    let made = match model {
        false => random_calls(Faulty::new(fault, Library), DEFAULT_CALLS, 1, 0, &stop),
        true => random_calls(Faulty::new(fault, Model), DEFAULT_CALLS, 1, 0, &stop),
    };
    made.1
}

/// The checks that catch a fault within the default number of calls, and after how many.
fn random_catch(mut caller: Caller<impl Services>) -> Option<(u64, Vec<Check>)> {
    for index in 0.. {
        if let Err(found) = guarded(&mut caller, |caller| rounds::round(caller, round_seed(1, 0, index))) {
            return Some((caller.counts.calls, names(&found)));
        }
        if caller.counts.calls >= DEFAULT_CALLS {
            break;
        }
    }
    None
}

fn names(found: &Disagreement) -> Vec<Check> {
    found.found.iter().map(|found| found.0).collect()
}

/// The properties alone, and the worked cases alone: without the reference.
fn bare_catch(faulty: impl Services) -> Vec<Check> {
    let mut caller = Caller::new(faulty);
    caller.bare = true;
    let mut caught = Vec::new();
    for seed in 0..200 {
        if let Err(found) = guarded(&mut caller, |caller| rounds::properties(caller, &mut Random::new(seed))) {
            caught.extend(names(&found));
        }
        if let Err(found) = guarded(&mut caller, |caller| trimmed::properties(caller, &mut Random::new(seed))) {
            caught.extend(names(&found));
        }
        if let Err(found) = guarded(&mut caller, |caller| versions::properties(caller, &mut Random::new(seed))) {
            caught.extend(names(&found));
        }
        if let Err(found) = guarded(&mut caller, |caller| voices::properties(caller, &mut Random::new(seed))) {
            caught.extend(names(&found));
        }
    }
    if let Err(found) = guarded(&mut caller, cases::all) {
        caught.extend(names(&found));
    }
    CHECKS.iter().map(|row| row.0).filter(|check| caught.contains(check)).collect()
}

/// What catches a fault where the library without it is the older build, and the reference is not asked.
fn older_catch(faulty: impl Services, older: Older) -> Vec<Check> {
    let mut caller = Caller::new(Beside::new(faulty, older));
    caller.bare = true;
    random_catch(caller).map_or(Vec::new(), |caught| caught.1)
}

/// Runs every fault, in the library or in the model. Each must be caught, and each check must catch at least one.
pub fn faults(model: bool) -> bool {
    let services = if model { faults_of(|| Model, Older::model()) } else { faults_of(|| Library, Older::linked()) };
    program::faults(!model) && services
}

/// What the run of a fault comes to.
struct Tried {
    lines: Vec<String>,
    caught: Vec<Check>,
    good: bool,
}

/// Runs one fault: against all checks, then against the properties and the worked cases alone, then beside the library without it.
fn tried<S: Services>(index: usize, services: &impl Fn() -> S, older: Older) -> Tried {
    let (fault, what) = FAULTS[index];
    let listed = |checks: &[Check]| checks.iter().map(|&check| name(check)).collect::<Vec<_>>().join(", ");
    let (mut lines, mut good) = (Vec::new(), true);
    let mut caught = bare_catch(Faulty::new(fault, services()));
    match random_catch(Caller::new(Faulty::new(fault, services()))) {
        Some((calls, checks)) => {
            let alone = if caught.is_empty() { "-".to_string() } else { listed(&caught) };
            lines.push(format!("{index} | {what} | {calls} | {} | {alone}", listed(&checks)));
            caught.extend(checks);
        }
        None => {
            lines.push(format!("{index} | {what} | NOT CAUGHT in {} calls | - | -", grouped(DEFAULT_CALLS)));
            good = false;
        }
    }
    let beside = older_catch(Faulty::new(fault, services()), older);
    if !beside.iter().any(|check| matches!(check, Check::Older | Check::Ends)) {
        lines.push(format!("{index} | {what} | NOT CAUGHT beside the library without it | - | -"));
        good = false;
    }
    caught.extend(beside);
    Tried { lines, caught, good }
}

/// The faults in as many threads as there are cores, told in their order.
fn faults_of<S: Services>(services: impl Fn() -> S + Sync, older: Older) -> bool {
    let threads = std::thread::available_parallelism().map_or(1, usize::from);
    let share = |first: usize| {
        (first..FAULTS.len()).step_by(threads).map(|index| (index, tried(index, &services, older))).collect::<Vec<_>>()
    };
    // The message of a panic that is one of the faults is not printed.
    std::panic::set_hook(Box::new(|_| {}));
    let shares: Vec<_> = std::thread::scope(|scope| {
        let running: Vec<_> = (0..threads).map(|first| scope.spawn(move || share(first))).collect();
        running.into_iter().map(|thread| thread.join()).collect()
    });
    drop(std::panic::take_hook());
    let mut all: Vec<(usize, Tried)> = shares.into_iter().flat_map(|share| share.expect("a thread ends")).collect();
    all.sort_by_key(|tried| tried.0);
    println!("number | fault | calls | caught by | by properties and worked cases alone");
    let (mut good, mut caught) = (true, Vec::new());
    for (_, tried) in all {
        tried.lines.iter().for_each(|line| println!("{line}"));
        good &= tried.good;
        caught.extend(tried.caught);
    }
    for (check, name, _) in CHECKS.iter().filter(|row| !caught.contains(&row.0)) {
        println!("NO FAULT is caught by the check {name} ({check:?})");
        good = false;
    }
    if good {
        println!("{} faults, each caught; {} checks, each of which caught a fault", FAULTS.len(), CHECKS.len());
    }
    good
}
