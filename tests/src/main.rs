//! The cross-checks: an independent program that calls the library and compares every word of its answers and of all
//! buffers.

mod beside;
mod calls;
mod cases;
mod checkers;
mod checks;
mod counts;
mod damage;
mod disagreement;
mod faults;
mod lent;
mod model;
mod object;
mod program;
mod random;
mod reference;
mod rounds;
mod runs;
mod services;
mod shapes;
mod text_faults;
mod trimmed;
mod versions;
mod voice_faults;
mod voices;
mod words;

use beside::Older;
use std::process::ExitCode;

const USAGE: &str =
    "cross-checks [--calls N] [--seed S] [--threads T]   random calls; 150,000 with seed 1 in one thread unless said
cross-checks --round R                              one round again, by the seed that a disagreement prints
cross-checks --beside LIBRARY [..]                  with one of these: an older build, a shared object, makes each call too
cross-checks --program PATH [--seed S]              the printing program too
cross-checks --sample LOG                           the text stored beside a log, with .out for its ending
cross-checks --faults                               deliberate faults, each of which must be caught
cross-checks --fault N                              one of them, shown as a disagreement is shown
cross-checks --model [..]                           any of these but the program's, on a model made from the reference";

/// What the command line asks for.
pub struct Wanted {
    calls: u64,
    seed: u64,
    threads: usize,
    round: Option<u64>,
    older: Option<Older>,
    program: Option<String>,
    sample: Option<String>,
    faults: bool,
    fault: Option<usize>,
    model: bool,
}

/// At least one thread, and no more than there are cores.
fn threads(count: u64) -> Result<usize, String> {
    let cores = std::thread::available_parallelism().map_or(1, |cores| cores.get());
    if (1..=cores as u64).contains(&count) { Ok(count as usize) } else { Err(format!("1 to {cores} threads, not {count}")) }
}

fn wanted() -> Result<Wanted, String> {
    let mut wanted = Wanted {
        calls: runs::DEFAULT_CALLS,
        seed: 1,
        threads: 1,
        round: None,
        older: None,
        program: None,
        sample: None,
        faults: false,
        fault: None,
        model: false,
    };
    let mut given = std::env::args().skip(1);
    while let Some(option) = given.next() {
        match option.as_str() {
            "--faults" => {
                wanted.faults = true;
                continue;
            }
            "--model" => {
                wanted.model = true;
                continue;
            }
            _ => {}
        }
        let value = given.next().ok_or(format!("{option} needs a value"))?;
        let figure = || value.replace(['_', ','], "").parse::<u64>().map_err(|_| format!("{option} needs a number, not {value}"));
        match option.as_str() {
            "--calls" => wanted.calls = figure()?,
            "--seed" => wanted.seed = figure()?,
            "--threads" => wanted.threads = threads(figure()?)?,
            "--fault" => wanted.fault = Some(figure()? as usize),
            "--round" => wanted.round = Some(figure()?),
            "--beside" => wanted.older = Some(Older::open(&value)?),
            "--program" => wanted.program = Some(value),
            "--sample" => wanted.sample = Some(value),
            _ => return Err(format!("what is {option}?")),
        }
    }
    Ok(wanted)
}

fn main() -> ExitCode {
    let wanted = match wanted() {
        Ok(wanted) => wanted,
        Err(what) => {
            eprintln!("{what}\n{USAGE}");
            return ExitCode::from(2);
        }
    };
    let good = if wanted.faults {
        runs::faults(wanted.model)
    } else if let Some(index) = wanted.fault {
        runs::one_fault(index, wanted.model)
    } else if let Some(seed) = wanted.round {
        runs::one_round(seed, &wanted)
    } else if let Some(log) = wanted.sample {
        program::sample(&log)
    } else {
        runs::checks(&wanted) && wanted.program.as_ref().is_none_or(|path| program::check(path, wanted.seed))
    };
    if good { ExitCode::SUCCESS } else { ExitCode::FAILURE }
}
