//! The printing program: its text on many inputs, compared line by line with what it must be, and byte for byte with the text that
//! the text service gives. The wrapper's reports are displayed as the same text, and are judged and compared too.

use crate::checkers::{self, Shown};
use crate::checks::Found;
use crate::disagreement;
use crate::model;
use crate::random::Random;
use crate::reference::{
    Graph, Refusal, Subject, TEXT, WORK, bytes, in_order, line, loop_text, refusal_text, report_need, report_text,
};
use crate::services::{TextAnswer, header, texting};
use crate::shapes;
use crate::words::{TO, bytes as as_bytes, in_version, kind, log, number, with_voices};
use std::io::{Read, Write};
use std::process::{Command, Stdio};
use std::time::Duration;
use zohapy::{Failure, Report};

/// How many inputs at least, and how often each answer has to be met.
const INPUTS: usize = 400;
const FLOOR: usize = 5;
const MOST_INPUTS: usize = 20_000;
/// The answers of the program: no refusal, and the refusals that it can give.
const NUMBERS: [usize; 18] = [0, 1, 2, 3, 4, 5, 6, 7, 8, 9, 10, 13, 14, 15, 18, 19, 20, 21];

/// The figures of a line that begins with `label`.
fn figures(line: Option<&str>, label: &str) -> Result<Vec<usize>, String> {
    let line = line.ok_or(format!("no line {label}"))?;
    let rest = line.strip_prefix(label).ok_or(format!("the line {line:?} instead of {label}"))?;
    rest.split(' ').skip(1).map(|figure| figure.parse().map_err(|_| format!("{figure:?} in the line {label}"))).collect()
}

/// Compares a text with what the program must print on this input. The answer's number comes back.
fn judge(input: &[u8], text: &str) -> Result<u32, String> {
    let settled_text = |refusal: Refusal| {
        let due = refusal_text(refusal);
        if text == due { Ok(refusal.number) } else { Err(format!("{text:?} instead of {due:?}")) }
    };
    let words = match bytes(input) {
        Ok(words) => words,
        Err(refusal) => return settled_text(refusal),
    };
    let subject = Subject::new(words);
    let n = match subject.reading {
        Ok(read) => read.n,
        Err(refusal) => return settled_text(refusal),
    };
    let passed = subject.passed.as_ref().expect("a log that passes has a graph");
    let links = passed.link_count();
    let mut lines = text.lines();
    match passed.furthest() {
        None => {
            let steps = figures(lines.nth(1), "loop")?;
            if text != loop_text(&steps) {
                return Err(format!("{text:?} instead of {:?}", loop_text(&steps)));
            }
            checkers::not_a_loop(&steps, &passed.graph).map_or(Ok(13), Err)
        }
        Some(furthest) => {
            let head = [figures(lines.next(), "episodes")?, figures(lines.next(), "links")?];
            if head != [[n], [links]] {
                return Err(format!("{head:?} instead of {n} episodes and {links} links"));
            }
            let width = figures(lines.next(), "width")?.first().copied().ok_or("no width")?;
            let apart = figures(lines.next(), "apart")?;
            let threads = lines.map(|line| figures(Some(line), "thread")).collect::<Result<_, _>>()?;
            let shown = Shown { width, apart, threads };
            if text != report_text(n, links, &shown) {
                return Err(format!("{text:?} is not in the form {:?}", report_text(n, links, &shown)));
            }
            let mut found = Found::default();
            checkers::report(&shown, &passed.graph, furthest, &mut found);
            found.0.pop().map_or(Ok(0), |(check, what)| Err(format!("{check:?}: {what}")))
        }
    }
}

/// What the wrapper gives for an input.
fn wrapped(input: &[u8]) -> Result<Report, Failure> {
    Report::of(&zohapy::words_from_bytes(input)?)
}

/// Compares what the wrapper gave with what it must give: its text, and the link count of its report.
fn judge_wrapped(input: &[u8], wrapped: &Result<Report, Failure>) -> Result<u32, String> {
    let passed = bytes(input).ok().and_then(|words| Subject::new(words).passed);
    let due = passed.map_or(0, |passed| passed.link_count());
    if let Ok(Report { links, .. }) = wrapped
        && *links != due
    {
        return Err(format!("the wrapper: {links} links instead of {due}"));
    }
    judge(input, &displayed(wrapped)).map_err(|what| format!("the wrapper: {what}"))
}

/// What the wrapper gave as it is displayed.
fn displayed(wrapped: &Result<Report, Failure>) -> String {
    wrapped.as_ref().map_or_else(Failure::to_string, Report::to_string)
}

/// The text that the text service gives for an input, on buffers like those that the program lends.
fn served(input: &[u8]) -> String {
    let (mut text, mut out, mut work) = (vec![0xA5; TEXT], vec![u32::MAX; report_need(200, 0)], vec![u32::MAX; WORK]);
    let TextAnswer { bytes, .. } = texting(header::zohapy_text, input, &mut text, &mut out, &mut work);
    String::from_utf8_lossy(&text[..bytes]).into_owned()
}

/// Compares a text, and what the wrapper prints and displays for the same input, with the text that the text service gives.
fn compare(input: &[u8], text: &str, wrapped: &Result<Report, Failure>) -> Result<(), String> {
    let served = served(input);
    let all = [("the text", text), ("the wrapper's text", &zohapy::printed(input)), ("the wrapper", &displayed(wrapped))];
    match all.into_iter().find(|other| other.1 != served) {
        Some((what, other)) => Err(format!("{what}: {other:?} instead of {served:?}, as the text service has it")),
        None => Ok(()),
    }
}

/// Compares the program's exit status with that of an answer: 0 after a report, 1 after a refusal.
fn judge_status(number: u32, status: i32) -> Result<(), String> {
    let due = i32::from(number > 0);
    if status == due { Ok(()) } else { Err(format!("exit status {status} instead of {due}")) }
}

/// Runs the program on an input that is written in pieces of at most `piece` bytes. What it printed and its exit status come back.
fn printed(path: &str, input: &[u8], piece: usize, pause: bool) -> Result<(String, i32), String> {
    let mut child = Command::new(path)
        .stdin(Stdio::piped())
        .stdout(Stdio::piped())
        .spawn()
        .map_err(|error| format!("{path} cannot be run: {error}"))?;
    let (mut to, mut from) = (child.stdin.take().expect("a pipe"), child.stdout.take().expect("a pipe"));
    let mut text = Vec::new();
    let read = std::thread::scope(|scope| {
        scope.spawn(move || {
            for (i, part) in input.chunks(piece).enumerate() {
                // A program that has seen too many bytes may have ended: what it printed decides.
                if to.write_all(part).is_err() {
                    break;
                }
                if pause && i < 3 {
                    std::thread::sleep(Duration::from_millis(2));
                }
            }
        });
        from.read_to_end(&mut text)
    });
    let status = child.wait().map_err(|error| error.to_string())?;
    read.map_err(|error| error.to_string())?;
    let status = status.code().ok_or(format!("the program was ended by a signal: {status}"))?;
    Ok((String::from_utf8(text).map_err(|_| "the text is not in UTF-8")?, status))
}

/// An input for the program.
fn input(index: usize, random: &mut Random) -> Vec<u8> {
    let lengths = [0, 1, 2, 3, 4, 5, 8, 32_776, 32_780, 33_251, 33_253, 33_254, 33_255, 33_256, 33_257, 33_258, 33_260, 200_000];
    // The longest log: 120 voices words and 4,096 groups of one to word each, 33,256 bytes with head and end.
    let full = |random: &mut Random| {
        let said: Vec<_> = (0..120).map(|v| (v, random.below(3))).collect();
        let log = log(120, &[(0, 119, 4_095); 4_096], 16, random);
        as_bytes(&in_version(random.below(2), with_voices(&said, log)))
    };
    if index == 0 {
        return as_bytes(&[0x1000_0005, 0x2000_0000, 0x3000_0001, 0x2000_0002, 0x3000_0003, 0xF000_0002]);
    }
    if index == 1 {
        return full(random);
    }
    if index < 8 {
        return as_bytes(&log(random.between(2, 200), &[(0, 1, 30); 4_097], 0, random));
    }
    if index < 8 + 2 * lengths.len() {
        let mut bytes = if index.is_multiple_of(2) { full(random) } else { Vec::new() };
        bytes.resize(lengths[(index - 8) / 2], index as u8);
        return bytes;
    }
    // A voices word, and one that earns a refusal in most cases: 7, 19 or 21 on few episodes, 20 on 121.
    if random.chance(1, 20) {
        let n = *random.pick(&[2, 3, 120, 121]);
        let second = [(0, random.below(3)), (1, shapes::any_voices(random)), (n, 1), (1, random.below(3))];
        return as_bytes(&with_voices(&[(0, 2), *random.pick(&second)], log(n, &[(0, 1, 30)], 0, random)));
    }
    let mut bytes = as_bytes(&shapes::any(random).words);
    match (random.below(24), bytes.last_mut()) {
        (0 | 1, _) => bytes.truncate(bytes.len().saturating_sub(random.between(1, 3))),
        (2 | 3, _) => bytes.extend((0..random.between(1, 3)).map(|_| random.word() as u8)),
        // The top 4 bits of the last word: it is no end.
        (4, Some(last)) => *last &= 0x7F,
        _ => {}
    }
    bytes
}

/// Runs the program at `path` on many inputs.
pub fn check(path: &str, seed: u64) -> bool {
    let mut random = Random::new(seed);
    let mut met = [0; 22];
    let (mut repeats, mut uncounted, mut voiced) = (0, 0, 0);
    let mut count = 0;
    while count < INPUTS || (NUMBERS.iter().any(|&number| met[number] < FLOOR) && count < MOST_INPUTS) {
        let input = input(count, &mut random);
        let (piece, pause) = match random.below(4) {
            0 => (random.between(1, 7), input.len() < 200),
            1 => (random.between(100, 5_000), random.chance(1, 4)),
            _ => (usize::MAX, false),
        };
        let wrapped = wrapped(&input);
        repeats += usize::from(wrapped.as_ref().is_ok_and(|report| report.links < to_words(&input)));
        uncounted += usize::from(wrapped.as_ref().is_ok_and(|report| report.links < links_heard(&input)));
        voiced += usize::from(wrapped.as_ref().is_ok_and(|report| report.apart.len() < report.threads.len()));
        let judged = judge_wrapped(&input, &wrapped);
        let judged = judged.and_then(|_| printed(path, &input, piece, pause)).and_then(|(text, status)| {
            let number = judge(&input, &text)?;
            judge_status(number, status)?;
            compare(&input, &text, &wrapped).map(|()| number)
        });
        match judged {
            Ok(number) => met[number as usize] += 1,
            Err(what) => {
                println!(
                    "DISAGREEMENT in the program {path}, seed {seed}, input {count} of {} bytes in pieces of {piece}",
                    input.len()
                );
                println!("  {what}");
                println!(
                    "  input in the file: {}",
                    disagreement::save(&format!("program-seed-{seed}-input-{count}.bin"), &input)
                );
                return false;
            }
        }
        count += 1;
    }
    println!("program: {count} inputs, no disagreement; answers by number, 0 is no refusal:");
    println!("{}", NUMBERS.map(|number| format!("{number}: {}", met[number])).join("  "));
    println!("reports with fewer links than to words: {repeats}, than links that were heard: {uncounted}");
    println!("reports with fewer members than threads: {voiced}");
    let missing: Vec<_> = NUMBERS.iter().filter(|&&number| met[number] < FLOOR).collect();
    if !missing.is_empty() {
        println!("met fewer than {FLOOR} times: {missing:?}");
    }
    missing.is_empty() && repeats.min(uncounted).min(voiced) >= FLOOR
}

/// Judges the text that is stored beside the log in a file.
pub fn sample(log: &str) -> bool {
    let stored = std::path::Path::new(log).with_extension("out");
    let judged = std::fs::read(log)
        .and_then(|input| Ok((input, std::fs::read_to_string(&stored)?)))
        .map_err(|error| error.to_string())
        .and_then(|(input, text)| {
            let wrapped = wrapped(&input);
            judge_wrapped(&input, &wrapped)?;
            let number = judge(&input, &text)?;
            compare(&input, &text, &wrapped).map(|()| number)
        });
    match judged {
        Ok(number) => println!("{log}: the stored text agrees; its answer is {number}"),
        Err(ref what) => println!("DISAGREEMENT in {}: {what}", stored.display()),
    }
    judged.is_ok()
}

/// How many to words an input has.
fn to_words(input: &[u8]) -> usize {
    bytes(input).map_or(0, |words| words.iter().filter(|&&given| kind(given) == TO).count())
}

/// How many different links a log that passes has, whether they count or not.
fn links_heard(input: &[u8]) -> usize {
    let passed = bytes(input).ok().filter(|words| in_order(words).is_ok());
    passed.map_or(0, |words| Graph::of_all(&words).links.len())
}

/// The text with other figures in the line of this name.
fn with_line(text: &str, label: &str, figure: usize) -> String {
    let other = |given: &str| if given.starts_with(label) { line(label, &[figure]) } else { given.into() };
    text.split_inclusive('\n').map(other).collect()
}

/// Alters the text for an input.
type Alteration = fn(String, &[u8]) -> String;

/// Counts something in an input.
type Counting = fn(&[u8]) -> usize;

/// Texts with a fault: whatever is altered must be refused.
const TEXT_FAULTS: [(&str, Alteration); 20] = [
    ("no newline at the end", |text, _| text.trim_end().to_string()),
    ("an empty line at the end", |text, _| text + "\n"),
    ("two spaces", |text, _| text.replacen(' ', "  ", 1)),
    ("a space at the end of a line", |text, _| text.replace('\n', " \n")),
    ("a space behind apart alone", |text, _| text.replace("apart\n", "apart \n")),
    ("carriage returns", |text, _| text.replace('\n', "\r\n")),
    ("a figure with a zero before it", |text, _| text.replacen(' ', " 0", 1)),
    ("the place one digit longer", |text, _| text.replacen(" at ", " at 1", 1)),
    ("14 with the byte count", |text, _| text.replace("refused 14 at 33256", "refused 14 at 33257")),
    ("no loop line", |text, _| text.split_inclusive('\n').filter(|line| !line.starts_with("loop")).collect()),
    ("the last line missing", |text, _| text[..text.trim_end().rfind('\n').map_or(0, |end| end + 1)].to_string()),
    ("links before episodes", |text, _| text.replace("episodes", "x").replace("links", "episodes").replace('x', "links")),
    ("to words for links", |text, input| with_line(&text, "links", to_words(input))),
    ("links that do not count in links", |text, input| with_line(&text, "links", links_heard(input))),
    ("the version in episodes", |text, input| {
        let head = bytes(input).ok().and_then(|words| words.first().copied());
        with_line(&text, "episodes", head.map_or(0, number))
    }),
    ("3 for 18", |text, _| text.replace("refused 18 at", "refused 3 at")),
    ("4 for 19", |text, _| text.replace("refused 19 at", "refused 4 at")),
    ("4 for 20", |text, _| text.replace("refused 20 at", "refused 4 at")),
    ("4 for 21", |text, _| text.replace("refused 21 at", "refused 4 at")),
    ("the count of members in width", |text, _| {
        let members = text.lines().find_map(|line| line.strip_prefix("apart")).map(|members| members.split(' ').count() - 1);
        members.map_or(text.clone(), |members| with_line(&text, "width", members))
    }),
];

/// Whether each text that is right is taken and each altered one is not; the wrapper's too, where `wrapper` says so.
pub fn faults(wrapper: bool) -> bool {
    let mut random = Random::new(3);
    let inputs: Vec<Vec<u8>> = (0..600).map(|index| input(index, &mut random)).collect();
    let texts: Vec<String> = inputs.iter().map(|input| model::text_of(input)).collect();
    let mut good = true;
    for (input, text) in inputs.iter().zip(&texts) {
        let own = |number| {
            if !wrapper {
                return Ok(number);
            }
            let wrapped = wrapped(input);
            judge_wrapped(input, &wrapped).and_then(|_| compare(input, &served(input), &wrapped)).map(|()| number)
        };
        if let Err(what) = judge(input, text).and_then(own) {
            println!("a right text is not taken: {what}");
            good = false;
        }
    }
    println!("text fault | altered texts, all refused");
    for (name, alter) in TEXT_FAULTS {
        let altered = |input, text: &String| Some(alter(text.clone(), input)).filter(|other| other != text);
        let tried = inputs.iter().zip(&texts).filter_map(|(input, text)| Some(judge(input, &altered(input, text)?)));
        good &= all_refused(name, tried.collect());
    }
    let statuses = [("exit status 0 after a refusal", 0), ("exit status 1 after a report", 1), ("exit status 2", 2)];
    for (name, status) in statuses {
        let numbers = inputs.iter().zip(&texts).filter_map(|(input, text)| judge(input, text).ok());
        let other = numbers.filter(|number| i32::from(*number > 0) != status);
        good &= all_refused(name, other.map(|number| judge_status(number, status).map(|()| number)).collect());
    }
    let counts: [(&str, Counting); 2] = [("to words for links", to_words), ("links that do not count in links", links_heard)];
    for (name, count) in counts.into_iter().filter(|_| wrapper) {
        let altered = |input: &Vec<u8>| {
            let report = wrapped(input).ok().filter(|report| report.links != count(input))?;
            Some(judge_wrapped(input, &Ok(Report { links: count(input), ..report })))
        };
        good &= all_refused(&format!("{name} in the wrapper's report"), inputs.iter().filter_map(altered).collect());
    }
    if wrapper {
        // Texts that are right too.
        let altered = |input: &Vec<u8>| {
            let right = model::text_of(input);
            (right != served(input)).then(|| compare(input, &right, &wrapped(input)).map(|()| 0))
        };
        good &= all_refused("another cover or loop than that of the text service", inputs.iter().filter_map(altered).collect());
    }
    good
}

/// Whether every altered text was refused, and there was one.
fn all_refused(name: &str, judged: Vec<Result<u32, String>>) -> bool {
    let good = !judged.is_empty() && judged.iter().all(Result::is_err);
    println!("{name} | {}{}", judged.len(), if good { "" } else { "  NOT ALL REFUSED" });
    good
}

#[cfg(test)]
mod tests {
    use super::*;

    #[test]
    fn right_texts_are_taken_and_altered_ones_are_not() {
        assert!(faults(false));
    }
}
