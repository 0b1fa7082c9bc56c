//! The tool on the logs in samples/. Each has what a report program prints for it; all but the damaged one have a text form and a
//! picture, and all but this and the loop a trimmed copy.

use std::path::PathBuf;
use std::process::{Command, Output};

use zohapy::{
    Failure, Link, Report, WORK_WORDS, bytes_from_words, copy_words_with_voices, episode, fair_copy, head_episodes, head_version,
    kind, links, marks, read, to_word, voices_word, words_from_bytes,
};

/// The samples, and whether they have a text form.
const SAMPLES: [(&str, bool); 8] = [
    ("whole-example", true),
    ("small-night", true),
    ("paused-night", true),
    ("long-night", true),
    ("duet-night", true),
    ("full-night", true),
    ("loop", true),
    ("damaged", false),
];

fn path(name: &str, ending: &str) -> PathBuf {
    [env!("CARGO_MANIFEST_DIR"), "..", "samples", &format!("{name}.{ending}")].iter().collect()
}

fn content(name: &str, ending: &str) -> Vec<u8> {
    std::fs::read(path(name, ending)).expect("the sample is there")
}

/// What the command gives for a sample.
fn run(command: &str, name: &str, ending: &str) -> Output {
    Command::new(env!("CARGO_BIN_EXE_zohapy-tool")).arg(command).arg(path(name, ending)).output().expect("the command runs")
}

#[test]
fn text_forms_and_bytes_belong_together() {
    for (name, _) in SAMPLES.iter().filter(|sample| sample.1) {
        assert!(run("text", name, "log").stdout == content(name, "txt"), "{name}");
        assert!(run("bytes", name, "txt").stdout == content(name, "log"), "{name}");
    }
}

#[test]
fn the_lines_are_those_of_the_library() {
    for (name, _) in SAMPLES {
        let words = words_from_bytes(&content(name, "log")).expect("the bytes are words");
        let lines = match Report::of(&words) {
            Ok(report) => report.to_string(),
            Err(failure) => failure.to_string(),
        };
        assert_eq!(lines.as_bytes(), content(name, "out"), "{name}");
    }
}

#[test]
fn each_has_a_picture_or_a_refusal() {
    for (name, text_form) in SAMPLES {
        let Output { status, stdout, stderr } = run("picture", name, "log");
        if text_form {
            assert!(status.success() && stdout.starts_with(b"<svg ") && stderr.is_empty(), "{name}");
        } else {
            assert_eq!((status.code(), &stdout[..], &stderr[..]), (Some(1), &b""[..], &content(name, "out")[..]), "{name}");
            assert_eq!(run("text", name, "log").status.code(), Some(1));
        }
    }
}

#[test]
fn the_stored_pictures_are_those_of_the_logs() {
    for name in ["small-night", "paused-night", "long-night", "duet-night"] {
        assert!(run("picture", name, "log").stdout == content(name, "svg"), "{name}");
    }
}

#[test]
fn the_stored_fair_copies_are_those_of_the_logs() {
    for name in ["paused-night", "long-night", "duet-night"] {
        let log = words_from_bytes(&content(name, "log")).expect("the bytes are words");
        let (to_words, voices_words) = (read(&log).expect("the log passes").links, marks(&log).expect("the log passes").len());
        let mut out = vec![0; copy_words_with_voices(to_words, voices_words)];
        let count = fair_copy(&log, &mut out, &mut vec![0; WORK_WORDS]).expect("the log has a fair copy");
        assert!(bytes_from_words(&out[..count]) == run("bytes", name, "fair.txt").stdout, "{name}");
    }
}

#[test]
fn a_trimmed_copy_lacks_the_implied_link_and_those_that_do_not_count() {
    let rows = [("paused-night", &[(0, 6)][..]), ("long-night", &[(0, 5), (1, 5), (4, 6), (9, 2)]), ("duet-night", &[(3, 8)])];
    for (name, left_out) in rows {
        let fair = words_from_bytes(&run("bytes", name, "fair.txt").stdout).expect("the bytes are words");
        let trimmed = words_from_bytes(&run("trim", name, "log").stdout).expect("the bytes are words");
        let mut kept = links(&fair).expect("the fair copy passes");
        kept.retain(|link| !left_out.contains(&(link.from, link.to)));
        kept.iter_mut().for_each(|link| link.pause = 0);
        assert_eq!(links(&trimmed), Ok(kept), "{name}");
        assert_eq!(marks(&trimmed), marks(&fair), "{name}");
        assert_eq!((head_version(trimmed[0]), head_episodes(trimmed[0])), (0, head_episodes(fair[0])), "{name}");
    }
}

#[test]
fn what_the_pauses_of_long_night_do() {
    let log = words_from_bytes(&content("long-night", "log")).expect("the bytes are words");
    let links = links(&log).expect("the log passes");
    // The width where the to word of one link has another pause.
    let width = |from, to, pause, other| {
        let mut log = log.clone();
        let at = links.iter().position(|link| *link == Link { from, to, pause }).expect("it is a link of the log");
        *log.iter_mut().filter(|word| kind(**word) == 3).nth(at).expect("it has a to word") = to_word(to, other).expect("room");
        Report::of(&log).map(|report| report.width)
    };
    assert_eq!(Report::of(&log).map(|report| report.width), Ok(3));
    assert_eq!(width(4, 6, 361, 360), Ok(2));
    assert!(matches!(width(9, 2, 480, 360), Err(Failure::Loop(_))));
    assert_eq!(width(1, 5, 420, 360), Ok(3));
    assert_eq!(width(3, 4, 360, 361), Ok(4));
    assert_eq!(width(2, 5, 200, 361), Ok(4));
    assert_eq!(width(2, 5, 400, 360), Ok(3));
}

#[test]
fn what_the_voices_of_duet_night_do() {
    let log = words_from_bytes(&content("duet-night", "log")).expect("the bytes are words");
    // The width and the apart set where an episode has other voices.
    let report = |marked, voices| {
        let mut log = log.clone();
        let word = log.iter_mut().find(|word| kind(**word) == 9 && episode(**word) == marked).expect("it has a voices word");
        *word = voices_word(marked, voices).expect("room");
        Report::of(&log).map(|report| (report.width, report.apart)).expect("the log has a report")
    };
    let given = (4, vec![2, 3, 4]);
    assert_eq!(Report::of(&log).map(|report| (report.width, report.apart)), Ok(given.clone()));
    assert_eq!(report(3, 1), (3, vec![7, 8, 9]));
    for (marked, voices) in [(6, 1), (5, 1), (10, 1), (9, 0)] {
        assert_eq!(report(marked, voices), given, "{marked}");
    }
}

#[test]
fn the_stored_trimmed_copies_are_those_of_the_logs() {
    let report = |bytes: &[u8]| Report::of(&words_from_bytes(bytes).expect("the bytes are words")).expect("there is no loop");
    for name in ["full-night", "duet-night"] {
        let trimmed = run("trim", name, "log").stdout;
        assert!(trimmed == run("bytes", name, "trimmed.txt").stdout, "{name}");
        let (of_log, of_copy) = (report(&content(name, "log")), report(&trimmed));
        assert_eq!((of_copy.width, of_copy.apart), (of_log.width, of_log.apart), "{name}");
    }
}

#[test]
fn small_samples_have_nothing_to_trim() {
    for name in ["whole-example", "small-night"] {
        assert!(run("trim", name, "log").stdout == content(name, "log"), "{name}");
    }
}

#[test]
fn trim_prints_the_lines_of_a_refusal() {
    for name in ["loop", "damaged"] {
        let Output { status, stdout, stderr } = run("trim", name, "log");
        assert_eq!((status.code(), &stdout[..], &stderr[..]), (Some(1), &b""[..], &content(name, "out")[..]), "{name}");
    }
}

#[test]
fn other_trouble_has_status_2() {
    assert_eq!(run("bytes", "full-night", "log").status.code(), Some(2));
    assert_eq!(run("text", "no such sample", "log").status.code(), Some(2));
    assert_eq!(run("sing", "full-night", "log").status.code(), Some(2));
}
