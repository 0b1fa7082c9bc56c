//! With the name of a file: the report on the log whose bytes it holds. Without: the seven services on a log of 5 episodes with
//! the links 0-1 and 2-3 and other small logs, and their refusals; it prints what examples/expected.txt holds.

use std::error::Error;

use zohapy::{Failure, LOG_BYTES, LONGEST_PAUSE, Link, Mark, Outcome, Refusal, Report, TEXT_BYTES, TrimOutcome, WORK_WORDS};

const WHOLE: [u32; 6] = [0x1000_0005, 0x2000_0000, 0x3000_0001, 0x2000_0002, 0x3000_0003, 0xF000_0002];

/// Logs for each refusal of a reading but 8, which takes 4,097 to words.
const REFUSED: [&[u32]; 14] = [
    &[0x1000_0005],                                                    // 1: fewer than two words
    &[0x2000_0005, 0xF000_0000],                                       // 2: no head
    &[zohapy::head_word(2, 5).unwrap(), 0xF000_0000],                  // 18: version 2
    &[0x1000_00C9, 0xF000_0000],                                       // 3: 201 episodes
    &[0x1000_0005, 0x7000_0000, 0xF000_0000],                          // 4: neither a from word nor a to word
    &[0x1000_0005, 0x3000_0001, 0xF000_0001],                          // 5: a to word before any from word
    &[0x1000_0005, 0x2000_0001, 0xF000_0000],                          // 6: a from word without a to word
    &[0x1000_0005, 0x2000_0000, 0x3000_0005, 0xF000_0001],             // 7: episode 5 is not below 5
    &[0x1000_0079, voices_word(0, 1), 0xF000_0000],                    // 20: voices among 121 episodes
    &[0x1000_0005, voices_word(5, 2), 0xF000_0000],                    // 7: voices of episode 5, which is not below 5
    &[0x1000_0005, voices_word(3, 3), 0xF000_0000],                    // 19: three voices
    &[0x1000_0005, voices_word(3, 2), voices_word(3, 2), 0xF000_0000], // 21: voices of 3 again
    &[0x1000_0005, 0x2000_0000, 0x3000_0001, 0x3000_0002],             // 9: no end
    &[0x1000_0005, 0x2000_0000, 0x3000_0001, 0xF000_0000],             // 10: the end says 0 and there is 1
];

/// 3 episodes and the links 0-1, 0-2 and 1-2. The path 0 1 2 stands beside the link 0-2.
const BESIDE: [u32; 7] = [0x1000_0003, 0x2000_0000, 0x3000_0001, 0x3000_0002, 0x2000_0001, 0x3000_0002, 0xF000_0003];

/// 3 episodes and the link 0-2 with a pause of 20 minutes, 0-1 with one of 90 and again with one of 45.
const PAUSED: [u32; 6] = [
    0x1000_0003,
    0x2000_0000,
    zohapy::to_word(2, 20).unwrap(),
    zohapy::to_word(1, 90).unwrap(),
    zohapy::to_word(1, 45).unwrap(),
    0xF000_0003,
];

/// Version 1, 3 episodes and the links 0-1 with a pause of 400 minutes and again with one of 200, and 1-2 with one of 361. In
/// version 1 that is too long: 1-2 does not count.
const LONG_PAUSES: [u32; 7] = [
    zohapy::head_word(1, 3).unwrap(),
    0x2000_0000,
    zohapy::to_word(1, 400).unwrap(),
    zohapy::to_word(1, 200).unwrap(),
    0x2000_0001,
    zohapy::to_word(2, LONGEST_PAUSE + 1).unwrap(),
    0xF000_0003,
];

/// 4 episodes and the links 0-1, 1-2 and 1-3. 3 is a duet and 1 a door.
const VOICED: [u32; 9] = [
    0x1000_0004,
    voices_word(3, 2),
    voices_word(1, 0),
    0x2000_0000,
    0x3000_0001,
    0x2000_0001,
    0x3000_0002,
    0x3000_0003,
    0xF000_0003,
];

/// One episode, which is a door.
const DOOR: [u32; 3] = [0x1000_0001, voices_word(0, 0), 0xF000_0000];

const LOOP: [u32; 6] = [0x1000_0002, 0x2000_0000, 0x3000_0001, 0x2000_0001, 0x3000_0000, 0xF000_0002];

fn main() -> Result<(), Box<dyn Error>> {
    if let Some(file) = std::env::args_os().nth(1) {
        match zohapy::words_from_bytes(&std::fs::read(file)?).map_err(Into::into).and_then(|log| Report::of(&log)) {
            Ok(report) => print!("{report}"),
            Err(failure) => print!("{failure}"),
        }
        return Ok(());
    }

    // The owned form.
    print!("{}", Report::of(&WHOLE)?);

    // The lent form: the caller's buffers, which a refusal leaves as they were.
    let mut out = vec![0; zohapy::report_words_with_voices(5)];
    let mut work = vec![0; WORK_WORDS];
    let count = zohapy::fair_copy(&WHOLE, &mut out, &mut work)?;
    print_words("copy", &out[..count]);
    // A link that is given twice counts once. Of its pauses the fair copy has the least, and its to words rise by episode.
    for Link { from, to, pause } in zohapy::links(&PAUSED)? {
        println!("link {from}-{to} pause {pause}");
    }
    println!("to words {}\nlinks {}", zohapy::read(&PAUSED)?.links, zohapy::link_count(&PAUSED)?);
    let count = zohapy::fair_copy(&PAUSED, &mut out, &mut work)?;
    print_words("copy", &out[..count]);
    // The trimmed copy leaves out 0-2.
    match zohapy::trimmed_copy(&BESIDE, &mut out, &mut work) {
        TrimOutcome::Trimmed(count) => print_words("trimmed", &out[..count]),
        answered => panic!("the log has a trimmed copy, not {answered:?}"),
    }
    // The fair copy keeps the version and the link that does not count; the trimmed copy is of version 0 without it.
    println!("version {} of {} episodes", zohapy::head_version(LONG_PAUSES[0]), zohapy::head_episodes(LONG_PAUSES[0]));
    print!("{}", Report::of(&LONG_PAUSES)?);
    let count = zohapy::fair_copy(&LONG_PAUSES, &mut out, &mut work)?;
    print_words("copy", &out[..count]);
    match zohapy::trimmed_copy(&LONG_PAUSES, &mut out, &mut work) {
        TrimOutcome::Trimmed(count) => print_words("trimmed", &out[..count]),
        answered => panic!("the log has a trimmed copy, not {answered:?}"),
    }
    // Two threads hold the duet 3, and another passes the door 1. The copies have the voices rising by episode.
    for Mark { episode, voices } in zohapy::marks(&VOICED)? {
        println!("voices of {episode}: {voices}");
    }
    for Link { from, to, pause } in zohapy::links(&VOICED)? {
        println!("link {from}-{to} pause {pause}");
    }
    print!("{}", Report::of(&VOICED)?);
    let count = zohapy::fair_copy(&VOICED, &mut out, &mut work)?;
    print_words("copy", &out[..count]);
    match zohapy::trimmed_copy(&VOICED, &mut out, &mut work) {
        TrimOutcome::Trimmed(count) => print_words("trimmed", &out[..count]),
        answered => panic!("the log has a trimmed copy, not {answered:?}"),
    }
    for log in REFUSED {
        print_refusal(zohapy::read(log));
    }
    print_outcome(zohapy::report(&WHOLE, &mut out[..zohapy::report_words(5) - 1], &mut work));
    print_outcome(zohapy::report(&VOICED, &mut out[..zohapy::report_words(4)], &mut work));
    print_outcome(zohapy::report(&WHOLE, &mut out, &mut work[..WORK_WORDS - 1]));
    print!("{}", Report::of(&LOOP).expect_err("the log has a loop"));
    print_refusal(zohapy::thread(&LOOP, 0));
    // A log with a loop has no trimmed copy: the call shows the loop too.
    match zohapy::trimmed_copy(&LOOP, &mut out, &mut work) {
        TrimOutcome::Loop(length) => print!("{}", Failure::Loop(numbers(&out[1..=length]))),
        answered => panic!("the log has a loop, not {answered:?}"),
    }
    print_refusal(zohapy::thread(&[0x4000_0001, 0x5000_0000, 0x6000_0001, 0x7000_0000, 0xF000_0004], 1));
    // Texts, from bytes, on lent buffers. A log that is refused has a text too, and so has one whose bytes are refused.
    let mut text = vec![0; TEXT_BYTES];
    for log in [&WHOLE[..], &DOOR, &LOOP, REFUSED[13]] {
        let count = zohapy::text(&zohapy::bytes_from_words(log), &mut text, &mut out, &mut work)?.bytes;
        print!("{}", std::str::from_utf8(&text[..count])?);
    }
    // The owned form.
    print!("{}{}", zohapy::printed(&[0; LOG_BYTES + 1]), zohapy::printed(&[0; 7]));
    // A text buffer that is too short gets none, and no byte and no word has changed.
    print_refusal(zohapy::text(&[0; 8], &mut text[..TEXT_BYTES - 1], &mut out, &mut work));
    Ok(())
}

/// The voices word of an episode and its voices, which have room.
const fn voices_word(episode: u32, voices: u32) -> u32 {
    zohapy::voices_word(episode, voices).unwrap()
}

/// The numbers of words.
fn numbers(words: &[u32]) -> Vec<u32> {
    words.iter().map(|word| zohapy::number(*word)).collect()
}

/// Prints a line of a name and words.
fn print_words(name: &str, words: &[u32]) {
    println!("{name} {}", words.iter().map(|word| format!("{word:08X}")).collect::<Vec<_>>().join(" "));
}

/// Prints the refusal of a call that must be refused.
fn print_refusal<T: std::fmt::Debug>(answer: Result<T, Refusal>) {
    println!("{}", answer.expect_err("the call is refused"));
}

/// Prints the refusal of a report call that must be refused.
fn print_outcome(outcome: Outcome) {
    match outcome {
        Outcome::Refused(refusal) => println!("{refusal}"),
        answered => panic!("the call is refused, not {answered:?}"),
    }
}
