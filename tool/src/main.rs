//! Text forms, pictures, trimmed copies and explanations of logs, and tables of many.

mod answer;
mod explain;
mod log;
mod page;
mod picture;
#[cfg(test)]
mod random;
mod table;
mod week;
mod wording;

use std::ffi::OsString;
use std::fs::File;
use std::io::{BufWriter, Read, Write};
use std::process::ExitCode;

use answer::{Answer, Buffers};
use log::Log;
use week::Entry;
use zohapy::{
    Failure, LOG_BYTES, Refusal, Report, TrimOutcome, VERSION, WORK_WORDS, bytes_from_words, copy_words_with_voices, marks,
    number, read, trimmed_copy, words_from_bytes,
};

const USAGE: &str = "\
usage: zohapy-tool COMMAND [FILE]
       zohapy-tool table|page PATH...

  bytes       from the text form of a log, its bytes
  text        from the bytes of a log, its text form
  picture     from the bytes of a log, an SVG picture of its report, or of its loop
  trim        from the bytes of a log, the bytes of its trimmed copy
  explain     from the bytes of a log, why its number is what it is, or what is wrong with it
  table       of many logs, a table in CSV: the figures of each, its refusal or its loop
  page        of many logs, an HTML page: the table, and behind each row its picture or its explanation
  --version   the version
  --help      this text

Without FILE, or where it is -, standard input is read. The answer goes to standard output. A PATH is a log, or a folder, in which all
files that end in .log are looked for.

The text form has a line `version V` unless the version is 0, a line `episodes N`, a line `voices E C` for each voices word, which
gives the episode E C voices, then a line for each link, again where it is given again: `A-B`, or `A-B M` with its pause of M
minutes. Blank lines and lines that start with # are passed over. `bytes` does not ask whether the log would be accepted. `text` asks
questions 1 to 10 and 18 to 21, and `picture` also shows a loop. The picture's heading counts each link once; links that do not
count, those of version 1 with a least pause over 360 minutes, are dotted and not counted. A duet, of two voices, is a dot in a
circle, and a door, of none, an open circle. The trimmed copy has the voices and only those links A-B that count and for which no
other path of such links leads from A to B, in version 0 and without pauses. A log with a loop has none: `trim` refuses it and prints
the loop too.

exit status: 0; 1 where the log is refused, with `refused N at P` on standard error; 2 on any other trouble. `explain` gives 1 too, and
its answer. `table` and `page` give 1 where a file could not be read, and 0 else, since a refusal is an answer there.
";

/// Why there is no answer: the exit status and the message.
#[derive(Debug, PartialEq, Eq)]
struct Trouble {
    status: u8,
    message: String,
}

impl From<Refusal> for Trouble {
    fn from(refusal: Refusal) -> Trouble {
        Trouble { status: 1, message: refusal.to_string() }
    }
}

impl From<Failure> for Trouble {
    fn from(failure: Failure) -> Trouble {
        Trouble { status: 1, message: failure.to_string() }
    }
}

/// Any trouble but a refusal.
fn other(message: impl ToString) -> Trouble {
    Trouble { status: 2, message: message.to_string() }
}

fn main() -> ExitCode {
    let arguments: Vec<OsString> = std::env::args_os().skip(1).collect();
    let mut out = BufWriter::new(std::io::stdout());
    let done = run(&arguments, &mut out).and_then(|status| out.flush().map(|()| status).map_err(other));
    ExitCode::from(done.unwrap_or_else(|trouble| {
        eprintln!("{}", trouble.message.trim_end());
        trouble.status
    }))
}

/// Does what the arguments ask for. What is asked for goes to `out`; the answer is the exit status.
fn run(arguments: &[OsString], out: &mut dyn Write) -> Result<u8, Trouble> {
    let (command, named) = arguments.split_first().ok_or_else(|| other(USAGE))?;
    match command.to_str() {
        Some("table") => many(named, table::HEADING, table_line, |_| String::new(), out),
        Some("page") => many(named, &page::head(), page_row, page::tail, out),
        command => {
            let (answer, status) = one(command.unwrap_or_default(), named)?;
            out.write_all(&answer).map_err(other)?;
            Ok(status)
        }
    }
}

/// What a command on one file gives, and the exit status.
fn one(command: &str, named: &[OsString]) -> Result<(Vec<u8>, u8), Trouble> {
    let file = match named {
        [] => None,
        [file] => Some(file).filter(|file| *file != "-"),
        _ => return Err(other(USAGE)),
    };
    let answered = |command: fn(&mut dyn Read) -> Result<Vec<u8>, Trouble>| Ok((command(&mut *opened(file)?)?, 0));
    match command {
        "--help" | "-h" => Ok((USAGE.into(), 0)),
        "--version" => Ok((format!("zohapy-tool {VERSION}\n").into(), 0)),
        "bytes" => answered(bytes),
        "text" => answered(text),
        "picture" => answered(picture),
        "trim" => answered(trim),
        "explain" => explain(&mut *opened(file)?),
        _ => Err(other(USAGE)),
    }
}

/// The file, or standard input.
fn opened(file: Option<&OsString>) -> Result<Box<dyn Read>, Trouble> {
    match file {
        None => Ok(Box::new(std::io::stdin())),
        Some(file) => match File::open(file) {
            Ok(opened) => Ok(Box::new(opened)),
            Err(error) => Err(other(format!("{}: {error}", file.display()))),
        },
    }
}

/// What a command on many logs gives: the head, what the form makes of each log, and the tail. A summary goes to standard error, and
/// into the tail.
fn many(paths: &[OsString], head: &str, form: week::Form, tail: fn(&str) -> String, out: &mut dyn Write) -> Result<u8, Trouble> {
    let entries = found(paths)?;
    out.write_all(head.as_bytes()).map_err(other)?;
    let tally = week::write_all(&entries, form, out).map_err(other)?;
    let summary = tally.summary();
    out.write_all(tail(&summary).as_bytes()).and_then(|()| out.flush()).map_err(other)?;
    eprint!("{summary}");
    Ok(u8::from(tally.has_unread()))
}

/// The line of a log in a table.
fn table_line(file: &[u8], log: Result<(&[u8], &Answer), &str>) -> Vec<u8> {
    table::line(file, log.map(|(_, answer)| answer))
}

/// The row of a log in a page, with the explanation of a refusal. The picture of a report says itself why the number is what it is.
fn page_row(file: &[u8], log: Result<(&[u8], &Answer), &str>) -> Vec<u8> {
    let refused = log.ok().filter(|(_, answer)| answer.width().is_err());
    let explanation = refused.map(|(bytes, answer)| explain::explained(bytes, answer));
    page::row(file, log, explanation.as_deref()).into_bytes()
}

/// The logs of the paths, of which there is one at least. None begins with `-`, as no option is known.
fn found(paths: &[OsString]) -> Result<Vec<Entry>, Trouble> {
    let option = |path: &OsString| path.as_encoded_bytes().starts_with(b"-");
    if paths.is_empty() || paths.iter().any(option) { Err(other(USAGE)) } else { Ok(week::find(paths)) }
}

/// The bytes of a log from its text form.
fn bytes(input: &mut dyn Read) -> Result<Vec<u8>, Trouble> {
    let mut text = Vec::new();
    input.read_to_end(&mut text).map_err(other)?;
    let log = Log::from_text(&String::from_utf8_lossy(&text)).map_err(other)?;
    Ok(bytes_from_words(&log.words()))
}

/// The text form of a log from its bytes.
fn text(input: &mut dyn Read) -> Result<Vec<u8>, Trouble> {
    let log = Log::from_words(&words(input)?)?;
    Ok(log.to_string().into_bytes())
}

/// A picture of a log's report, or of its loop, from its bytes.
fn picture(input: &mut dyn Read) -> Result<Vec<u8>, Trouble> {
    let words = words(input)?;
    let log = Log::from_words(&words)?;
    match Report::of(&words) {
        Ok(report) => Ok(picture::of_report(&log, &report).into_bytes()),
        Err(Failure::Loop(episodes)) => Ok(picture::of_loop(&log, &episodes).into_bytes()),
        Err(Failure::Refused(refusal)) => Err(refusal.into()),
    }
}

/// The bytes of a log's trimmed copy from its bytes.
fn trim(input: &mut dyn Read) -> Result<Vec<u8>, Trouble> {
    let words = words(input)?;
    let mut out = vec![0; copy_words_with_voices(read(&words)?.links, marks(&words)?.len())];
    match trimmed_copy(&words, &mut out, &mut vec![0; WORK_WORDS]) {
        TrimOutcome::Trimmed(count) => Ok(bytes_from_words(&out[..count])),
        TrimOutcome::Loop(length) => Err(Failure::Loop(out[1..=length].iter().map(|word| number(*word)).collect()).into()),
        TrimOutcome::Refused(refusal) => Err(refusal.into()),
    }
}

/// A log explained, and 0 where it has a report, 1 where it is refused.
fn explain(input: &mut dyn Read) -> Result<(Vec<u8>, u8), Trouble> {
    let (log, mut buffers) = (log_bytes(input)?, Buffers::new());
    let answer = buffers.answer(&log);
    Ok((explain::explained(&log, &answer).into_bytes(), u8::from(answer.width().is_err())))
}

/// The words of the input's bytes.
fn words(input: &mut dyn Read) -> Result<Vec<u32>, Trouble> {
    Ok(words_from_bytes(&log_bytes(input)?)?)
}

/// The input's bytes, no more than are needed to refuse them.
fn log_bytes(input: &mut dyn Read) -> Result<Vec<u8>, Trouble> {
    let mut bytes = Vec::new();
    input.take(LOG_BYTES as u64 + 1).read_to_end(&mut bytes).map_err(other)?;
    Ok(bytes)
}

#[cfg(test)]
mod tests {
    use super::*;

    const WHOLE: [u32; 6] = [0x1000_0005, 0x2000_0000, 0x3000_0001, 0x2000_0002, 0x3000_0003, 0xF000_0002];

    fn refused(number: u32, place: usize) -> Result<Vec<u8>, Trouble> {
        Err(Trouble { status: 1, message: format!("refused {number} at {place}") })
    }

    #[test]
    fn text_to_bytes_to_text() {
        let given = &b"episodes 5\n0-1\n2-3\n"[..];
        let made = bytes(&mut { given }).expect("a text form");
        assert_eq!(made, bytes_from_words(&WHOLE));
        assert_eq!(text(&mut &made[..]), Ok(given.to_vec()));
    }

    #[test]
    fn pauses_from_text_to_bytes_to_text() {
        let given = &b"episodes 5\n0-1 45\n0-2\n0-1 4095\n3-4 1\n"[..];
        let made = bytes(&mut { given }).expect("a text form");
        assert_eq!(text(&mut &made[..]), Ok(given.to_vec()));
        let made = bytes(&mut &b"episodes 5\n0-1 0\n2-3 0\n"[..]).expect("a text form");
        assert_eq!(text(&mut &made[..]), Ok(b"episodes 5\n0-1\n2-3\n".to_vec()));
    }

    #[test]
    fn the_version_from_text_to_bytes_to_text() {
        let given = &b"version 1\nepisodes 3\n0-1 400\n0-1 200\n1-2 361\n"[..];
        let made = bytes(&mut { given }).expect("a text form");
        assert_eq!(made[..4], [3, 0, 0, 0x11]);
        assert_eq!(text(&mut &made[..]), Ok(given.to_vec()));
        let behind = bytes(&mut &b"episodes 3\nversion 1\n0-1 400\n0-1 200\n1-2 361\n"[..]).expect("a text form");
        assert_eq!(behind, made);
    }

    #[test]
    fn voices_from_text_to_bytes_to_text() {
        let given = &b"episodes 5\nvoices 3 2\nvoices 0 1\nvoices 1 0\n0-1 45\n2-3\n"[..];
        let made = bytes(&mut { given }).expect("a text form");
        assert_eq!(made[4..8], [3, 0, 2, 0x90]);
        assert_eq!(text(&mut &made[..]), Ok(given.to_vec()));
        // The trimmed copy has those other than 1, rising.
        assert_eq!(trim(&mut &made[..]), bytes(&mut &b"episodes 5\nvoices 1 0\nvoices 3 2\n0-1\n2-3\n"[..]));
        let svg = String::from_utf8(picture(&mut &made[..]).expect("the log has a report")).expect("text");
        assert!(svg.contains("class=\"duet\"") && svg.contains("class=\"door\""));
    }

    #[test]
    fn wrong_voices_are_refused() {
        for (given, number, place) in [
            (&b"episodes 121\nvoices 0 1\n"[..], 20, 1),
            (b"episodes 5\nvoices 5 3\n", 7, 1),
            (b"episodes 5\nvoices 1 2\nvoices 1 3\n", 19, 2),
            (b"episodes 5\nvoices 1 2\nvoices 1 2\n", 21, 2),
        ] {
            let made = bytes(&mut { given }).expect("a text form");
            assert_eq!(text(&mut &made[..]), refused(number, place));
            assert_eq!(picture(&mut &made[..]), refused(number, place));
            assert_eq!(trim(&mut &made[..]), refused(number, place));
        }
    }

    #[test]
    fn a_version_that_is_neither_0_nor_1_is_refused() {
        for version in 2..16 {
            let made = bytes(&mut format!("version {version}\nepisodes 201\n0-1\n").as_bytes()).expect("a text form");
            assert_eq!(text(&mut &made[..]), refused(18, 0));
            assert_eq!(picture(&mut &made[..]), refused(18, 0));
            assert_eq!(trim(&mut &made[..]), refused(18, 0));
        }
    }

    #[test]
    fn links_that_do_not_count_are_in_the_text_and_dotted_in_a_picture() {
        let made = bytes(&mut &b"version 1\nepisodes 3\n0-1 400\n0-1 200\n1-2 361\n1-2 900\n"[..]).expect("a text form");
        let svg = String::from_utf8(picture(&mut &made[..]).expect("the log has a report")).expect("text");
        assert_eq!(svg.matches("Sleeper report: 3 episodes, 1 link, width 2<").count(), 2, "the title and the heading");
        assert!(svg.contains("\nlinks 1\n") && svg.contains(">200</text>") && svg.contains(">361</text>"));
        assert_eq!(svg.matches("class=\"dotted\"").count(), 1);
        assert_eq!(trim(&mut &made[..]), bytes(&mut &b"episodes 3\n0-1\n"[..]));
    }

    #[test]
    fn a_repeated_link_stands_twice_in_the_text_and_counts_once_in_a_picture() {
        for given in [&b"episodes 2\n0-1\n0-1\n"[..], b"episodes 2\n0-1 45\n0-1 40\n"] {
            let made = bytes(&mut { given }).expect("a text form");
            assert_eq!(text(&mut &made[..]), Ok(given.to_vec()));
            let svg = String::from_utf8(picture(&mut &made[..]).expect("the log has a report")).expect("text");
            assert_eq!(svg.matches("Sleeper report: 2 episodes, 1 link, width 1<").count(), 2, "the title and the heading");
            assert!(svg.contains("\nlinks 1\n") && !svg.contains("2 links"));
        }
    }

    #[test]
    fn a_wrong_text_has_status_2() {
        let trouble = bytes(&mut &b"episodes 5\n0-1\nversion 1\n"[..]).expect_err("the version stands behind a link");
        assert_eq!((trouble.status, trouble.message.starts_with("line 3: expected version V")), (2, true));
        let trouble = bytes(&mut &b"episodes 5\n0-1\nvoices 1 2\n"[..]).expect_err("the voices stand behind a link");
        assert_eq!((trouble.status, trouble.message.starts_with("line 3: expected voices E C")), (2, true));
        for wrong in [&b"episodes 5\n0-\xFF\n"[..], b"episodes 5\n0-1 4096\n", b"episodes 5\n0-1 2 3\n"] {
            let trouble = bytes(&mut { wrong }).expect_err("the second line is no link");
            assert_eq!((trouble.status, trouble.message.starts_with("line 2: expected a link")), (2, true));
        }
    }

    #[test]
    fn a_refused_log_has_status_1() {
        let made = bytes(&mut &b"episodes 5\n0-1\n2-7\n"[..]).expect("a text form");
        assert_eq!(text(&mut &made[..]), refused(7, 4));
        assert_eq!(picture(&mut &made[..]), refused(7, 4));
        assert_eq!(trim(&mut &made[..]), refused(7, 4));
        assert_eq!(text(&mut &made[..7]), refused(15, 7));
        assert_eq!(trim(&mut &made[..7]), refused(15, 7));
        assert_eq!(picture(&mut std::io::repeat(0)), refused(14, 33256));
        assert_eq!(trim(&mut std::io::repeat(0)), refused(14, 33256));
    }

    #[test]
    fn a_loop_has_a_text_form_and_a_picture() {
        let given = &b"episodes 2\n0-1\n1-0\n"[..];
        let made = bytes(&mut { given }).expect("a text form");
        assert_eq!(text(&mut &made[..]), Ok(given.to_vec()));
        assert!(picture(&mut &made[..]).is_ok_and(|svg| svg.starts_with(b"<svg ")));
    }

    #[test]
    fn a_trimmed_copy_has_only_links_without_another_path() {
        let made = bytes(&mut &b"episodes 4\n2-3\n0-3\n1-2\n0-1\n0-2\n0-1\n"[..]).expect("a text form");
        let trimmed = trim(&mut &made[..]).expect("the log has no loop");
        let words = [0x1000_0004, 0x2000_0000, 0x3000_0001, 0x2000_0001, 0x3000_0002, 0x2000_0002, 0x3000_0003, 0xF000_0003];
        assert_eq!(trimmed, bytes_from_words(&words));
        assert_eq!(text(&mut &trimmed[..]), Ok(b"episodes 4\n0-1\n1-2\n2-3\n".to_vec()));
        assert_eq!(trim(&mut &trimmed[..]), Ok(trimmed));
    }

    #[test]
    fn a_trimmed_copy_has_no_pauses() {
        let made = bytes(&mut &b"episodes 4\n2-3 40\n0-3\n1-2 5\n0-1 15\n0-2 20\n0-1 10\n"[..]).expect("a text form");
        let trimmed = trim(&mut &made[..]).expect("the log has no loop");
        assert_eq!(text(&mut &trimmed[..]), Ok(b"episodes 4\n0-1\n1-2\n2-3\n".to_vec()));
    }

    #[test]
    fn a_picture_has_the_pauses() {
        let made = bytes(&mut &b"episodes 2\n0-1 45\n0-1 40\n"[..]).expect("a text form");
        let svg = String::from_utf8(picture(&mut &made[..]).expect("the log has a report")).expect("text");
        assert!(svg.contains(">40</text>") && !svg.contains(">45</text>"));
        let made = bytes(&mut &b"episodes 2\n0-1 45\n1-0\n"[..]).expect("a text form");
        assert!(String::from_utf8(picture(&mut &made[..]).expect("a picture of the loop")).expect("text").contains(">45</text>"));
    }

    #[test]
    fn a_loop_has_no_trimmed_copy() {
        for (given, lines) in [
            (&b"episodes 6\n0-1\n5-1\n1-4\n4-5\n"[..], "refused 13 at 3\nloop 1 4 5\n"),
            (b"episodes 200\n5-5\n", "refused 13 at 1\nloop 5\n"),
        ] {
            let made = bytes(&mut { given }).expect("a text form");
            assert_eq!(trim(&mut &made[..]), Err(Trouble { status: 1, message: lines.to_string() }));
        }
    }

    #[test]
    fn arguments() {
        let run = |arguments: &[&str]| {
            let mut out = Vec::new();
            let status = run(&arguments.iter().map(OsString::from).collect::<Vec<_>>(), &mut out)?;
            Ok((status, String::from_utf8(out).expect("text")))
        };
        assert_eq!(run(&["--help"]), Ok((0, USAGE.to_string())));
        assert_eq!(run(&["--version"]), Ok((0, format!("zohapy-tool {}\n", env!("CARGO_PKG_VERSION")))));
        for wrong in [&[][..], &["sing"], &["text", "a", "b"], &["table"], &["table", "-h"]] {
            assert_eq!(run(wrong), Err(other(USAGE)));
        }
        assert_eq!(run(&["text", "no such file"]).map_err(|trouble| trouble.status), Err(2));
    }
}
