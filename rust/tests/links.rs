//! The figures of a to word, the links of a log and how many there are, and what each service makes of pauses.

mod common;

use std::collections::{BTreeMap, BTreeSet};

use common::{OLD, copied, random, trimmed};
use zohapy::{
    Failure, Link, Outcome, Reading, Refusal, Report, WORK_WORDS, episode, kind, link_count, links, number, pause, read, report,
    report_words, to_word,
};

/// 5 episodes; 0-2 after 20 minutes, 0-1 after 90, 3-4 without a pause, and 0-1 again, after 45.
const PAUSED: [u32; 9] =
    [0x1000_0005, 0x2000_0000, 0x3014_0002, 0x305A_0001, 0x2000_0003, 0x3000_0004, 0x2000_0000, 0x302D_0001, 0xF000_0004];

/// A log of links (from, to, pause), one group for each.
fn log(n: u32, links: &[(u32, u32, u32)]) -> Vec<u32> {
    let mut words = vec![0x1000_0000 | n];
    words.extend(links.iter().flat_map(|(from, to, pause)| [0x2000_0000 | from, 0x3000_0000 | pause << 16 | to]));
    words.push(0xF000_0000 | links.len() as u32);
    words
}

/// The fair copy of links, by a sorted table of their least pauses.
fn table_copied(n: u32, links: &[(u32, u32, u32)]) -> Vec<u32> {
    let mut least: BTreeMap<u32, BTreeMap<u32, u32>> = BTreeMap::new();
    for (from, to, pause) in links {
        least.entry(*from).or_default().entry(*to).and_modify(|least| *least = *pause.min(least)).or_insert(*pause);
    }
    let mut words = vec![0x1000_0000 | n];
    for (from, row) in &least {
        words.push(0x2000_0000 | from);
        words.extend(row.iter().map(|(to, pause)| 0x3000_0000 | pause << 16 | to));
    }
    words.push(0xF000_0000 | least.values().map(BTreeMap::len).sum::<usize>() as u32);
    words
}

#[test]
fn a_to_word_has_an_episode_and_a_pause() {
    assert_eq!(to_word(1, 45), Some(0x302D_0001));
    assert_eq!(to_word(0, 0), Some(0x3000_0000));
    assert_eq!(to_word(65_535, 4_095), Some(0x3FFF_FFFF));
    for (to, minutes) in [(0, 0), (1, 45), (199, 4_095), (65_535, 0), (65_535, 1), (0, 4_095), (0x5555, 0xAAA)] {
        let word = to_word(to, minutes).expect("the word has room");
        assert_eq!((kind(word), episode(word), pause(word)), (3, to, minutes));
        assert_eq!(number(word), minutes * 65_536 + to);
    }
    for (to, minutes) in [(65_536, 0), (0, 4_096), (65_536, 4_096), (u32::MAX, 0), (0, u32::MAX), (u32::MAX, u32::MAX)] {
        assert_eq!(to_word(to, minutes), None);
    }
}

#[test]
fn links_come_in_the_order_of_the_log_with_their_pauses() {
    let expected = [(0, 2, 20), (0, 1, 90), (3, 4, 0), (0, 1, 45)].map(|(from, to, pause)| Link { from, to, pause });
    assert_eq!(links(&PAUSED), Ok(expected.to_vec()));
    assert_eq!(read(&PAUSED), Ok(Reading { episodes: 5, links: 4 }));
    assert_eq!(links(&log(0, &[])), Ok(vec![]));
    let mut random = random();
    for _ in 0..200 {
        let n = 1 + random(200);
        let given: Vec<_> = (0..random(300)).map(|_| (random(n), random(n), random(4096))).collect();
        let expected = given.iter().map(|&(from, to, pause)| Link { from, to, pause }).collect();
        assert_eq!(links(&log(n, &given)), Ok(expected));
    }
}

#[test]
fn a_refused_log_has_no_links() {
    assert_eq!(links(&[]), Err(Refusal { number: 1, place: 0 }));
    assert_eq!(links(&[0x1000_0005, 0x302D_0001, 0xF000_0001]), Err(Refusal { number: 5, place: 1 }));
    assert_eq!(links(&[0x1000_0005, 0x2000_0000, 0x302D_0001, 0xF000_0002]), Err(Refusal { number: 10, place: 3 }));
}

#[test]
fn a_log_without_links_has_link_count_0() {
    for n in [0, 1, 200] {
        assert_eq!(link_count(&log(n, &[])), Ok(0));
    }
}

#[test]
fn the_link_count_is_that_of_different_pairs() {
    let rows = [
        (&[(0, 1, 0)][..], 1),
        (&[(0, 1, 0), (0, 1, 0)], 1),
        (&[(0, 1, 0), (1, 0, 0)], 2),
        (&[(0, 0, 0), (0, 0, 0)], 1),
        (&[(0, 1, 5), (0, 1, 9)], 1),
        (&[(0, 1, 5), (0, 2, 5), (0, 1, 4095)], 2),
        (&[(0, 1, 0), (2, 1, 0), (0, 1, 0)], 2),
        (&[(0, 1, 0), (1, 2, 0), (0, 2, 0)], 3),
        (&[(0, 1, 1); 4096], 1),
    ];
    for (given, count) in rows {
        let log = log(3, given);
        assert_eq!(link_count(&log), Ok(count), "{given:?}");
        assert_eq!(read(&log).map(|reading| reading.links), Ok(given.len()), "{given:?}");
    }
    assert_eq!(link_count(&PAUSED), Ok(3));
}

#[test]
fn groups_do_not_change_the_link_count() {
    // 0-1 twice in one group; in two groups that follow each other; in two with another between them.
    assert_eq!(link_count(&[0x1000_0002, 0x2000_0000, 0x3000_0001, 0x3000_0001, 0xF000_0002]), Ok(1));
    assert_eq!(link_count(&[0x1000_0002, 0x2000_0000, 0x3000_0001, 0x2000_0000, 0x3000_0001, 0xF000_0002]), Ok(1));
    let parted =
        [0x1000_0003, 0x2000_0000, 0x3000_0001, 0x3000_0002, 0x2000_0001, 0x3000_0002, 0x2000_0000, 0x302D_0001, 0xF000_0004];
    assert_eq!(link_count(&parted), Ok(3));
}

#[test]
fn of_4096_different_links_each_counts() {
    // 64 episodes, each linked to each; the first of 200 linked to all; the last in the same way; and the corners, each twice.
    assert_eq!(link_count(&log(64, &(0..4096).map(|i| (i / 64, i % 64, 0)).collect::<Vec<_>>())), Ok(4096));
    assert_eq!(link_count(&log(200, &(0..4096).map(|i| (i / 200, i % 200, i % 4)).collect::<Vec<_>>())), Ok(4096));
    assert_eq!(link_count(&log(200, &(0..4096).map(|i| (199 - i / 200, 199 - i % 200, 4095)).collect::<Vec<_>>())), Ok(4096));
    assert_eq!(link_count(&log(200, &[(0, 0, 0), (0, 199, 0), (199, 0, 0), (199, 199, 0)].repeat(2))), Ok(4));
}

#[test]
fn a_log_with_a_loop_is_counted() {
    for (given, count) in [(&[(0, 0, 0)][..], 1), (&[(0, 1, 7), (1, 0, 0), (0, 1, 0)], 2)] {
        let log = log(2, given);
        assert!(matches!(Report::of(&log), Err(Failure::Loop(_))));
        assert_eq!(link_count(&log), Ok(count));
    }
}

#[test]
fn a_report_has_the_link_count() {
    let twice = log(2, &[(0, 1, 0), (0, 1, 0)]);
    let report = Report::of(&twice).expect("the log has a report");
    assert_eq!(report.links, 1);
    assert_eq!(report.to_string().lines().nth(1), Some("links 1"));
    assert_eq!(read(&twice), Ok(Reading { episodes: 2, links: 2 }));
}

#[test]
fn the_link_count_is_that_of_a_set_and_of_the_fair_copy() {
    let mut random = random();
    for round in 0..300 {
        let n = [1, 3, 20, 200][round % 4];
        let count = if round < 8 { 4096 } else { random(60) };
        let given: Vec<_> = (0..count).map(|_| (random(n), random(n), random(3))).collect();
        let log = log(n, &given);
        let different = given.iter().map(|link| (link.0, link.1)).collect::<BTreeSet<_>>().len();
        assert_eq!(link_count(&log), Ok(different));
        let copy = copied(&log);
        assert_eq!(read(&copy).map(|reading| reading.links), Ok(different));
        assert_eq!(link_count(&copy), Ok(different));
    }
}

#[test]
fn logs_without_pauses_read_as_before() {
    let whole = [0x1000_0005, 0x2000_0000, 0x3000_0001, 0x2000_0002, 0x3000_0003, 0xF000_0002];
    let expected = [(0, 1), (2, 3)].map(|(from, to)| Link { from, to, pause: 0 });
    assert_eq!(links(&whole), Ok(expected.to_vec()));
}

#[test]
fn question_7_looks_at_the_episode_of_a_to_word_alone() {
    for word in [0x3001_0004, 0x302D_0000, 0x3FFF_0004] {
        assert_eq!(read(&[0x1000_0005, 0x2000_0000, word, 0xF000_0001]), Ok(Reading { episodes: 5, links: 1 }));
    }
    for word in [0x3000_0005, 0x3001_0005, 0x3FFF_0005, 0x3000_FFFF, 0x3FFF_FFFF] {
        let log = [0x1000_0005, 0x2000_0000, word, 0xF000_0001];
        assert_eq!(read(&log), Err(Refusal { number: 7, place: 2 }), "{word:08X}");
        assert_eq!(links(&log), Err(Refusal { number: 7, place: 2 }), "{word:08X}");
    }
}

#[test]
fn no_other_word_has_a_pause() {
    assert_eq!(read(&[0x1001_0005, 0xF000_0000]), Err(Refusal { number: 3, place: 0 }));
    assert_eq!(read(&[0x1000_0005, 0x2001_0000, 0x3000_0001, 0xF000_0001]), Err(Refusal { number: 7, place: 1 }));
    assert_eq!(read(&[0x1000_0005, 0x2000_0000, 0x3000_0001, 0xF001_0001]), Err(Refusal { number: 10, place: 3 }));
}

#[test]
fn in_version_0_pauses_change_no_report_and_no_loop() {
    let words = |log: &[u32]| {
        let mut out = vec![OLD; report_words(200)];
        let outcome = report(log, &mut out, &mut vec![OLD; WORK_WORDS]);
        assert!(!matches!(outcome, Outcome::Refused(_)));
        (outcome, out)
    };
    let mut random = random();
    for _ in 0..200 {
        let n = 1 + random(20);
        let paused: Vec<_> = (0..random(40)).map(|_| (random(n), random(n), random(4096))).collect();
        let plain: Vec<_> = paused.iter().map(|&(from, to, _)| (from, to, 0)).collect();
        assert_eq!(words(&log(n, &paused)), words(&log(n, &plain)));
    }
    let Report { episodes, links, width, apart, .. } = Report::of(&PAUSED).expect("the log has a report");
    assert_eq!((episodes, links, width, &apart[..]), (5, 3, 3, &[1, 2, 4][..]));
}

#[test]
fn a_fair_copy_has_the_least_pause_of_each_link_and_rises_by_episode() {
    let copy = [0x1000_0005, 0x2000_0000, 0x302D_0001, 0x3014_0002, 0x2000_0003, 0x3000_0004, 0xF000_0003];
    assert_eq!(copied(&PAUSED), copy);
    assert_eq!(copied(&copy), copy);
    // Wherever the least one stands, and where it is 0.
    for pauses in [[7, 8, 9], [9, 7, 8], [8, 9, 7], [7, 7, 9]] {
        assert_eq!(copied(&log(2, &pauses.map(|pause| (0, 1, pause)))), log(2, &[(0, 1, 7)]));
    }
    assert_eq!(copied(&log(2, &[(0, 1, 4095), (0, 1, 0)])), log(2, &[(0, 1, 0)]));
    assert_eq!(copied(&log(2, &[(0, 1, 4095), (0, 1, 4095)])), log(2, &[(0, 1, 4095)]));
    // A loop is copied with its pauses.
    assert_eq!(copied(&log(2, &[(1, 0, 6), (0, 1, 5), (1, 0, 4)])), log(2, &[(0, 1, 5), (1, 0, 4)]));
}

#[test]
fn fair_copies_are_those_of_a_sorted_table() {
    let mut random = random();
    for round in 0..300 {
        let n = [1, 3, 20, 200][round % 4];
        let count = if round < 8 { 4096 } else { random(60) };
        let ceiling = [1, 2, 30, 4096][random(4) as usize];
        let links: Vec<_> = (0..count).map(|_| (random(n), random(n), random(ceiling))).collect();
        assert_eq!(copied(&log(n, &links)), table_copied(n, &links));
    }
}

#[test]
fn fair_copies_are_equal_exactly_when_the_links_and_their_least_pauses_are() {
    let rows = [
        (&[(0, 1, 5), (0, 1, 9)][..], &[(0, 1, 5)][..], true),
        (&[(0, 1, 5), (0, 1, 9)], &[(0, 1, 9)], false),
        (&[(0, 1, 5)], &[(0, 1, 0)], false),
        (&[(0, 1, 5), (1, 2, 6)], &[(1, 2, 6), (0, 1, 7), (0, 1, 5)], true),
        (&[(0, 1, 5), (1, 2, 6)], &[(1, 2, 5), (0, 1, 6)], false),
        (&[(0, 1, 5)], &[(1, 0, 5)], false),
    ];
    for (some, others, equal) in rows {
        assert_eq!(copied(&log(3, some)) == copied(&log(3, others)), equal, "{some:?} {others:?}");
    }
    assert_ne!(copied(&log(3, &[(0, 1, 5)])), copied(&log(2, &[(0, 1, 5)])));
}

#[test]
fn a_trimmed_copy_has_pause_0() {
    let copy = [0x1000_0005, 0x2000_0000, 0x3000_0001, 0x3000_0002, 0x2000_0003, 0x3000_0004, 0xF000_0003];
    assert_eq!(trimmed(&PAUSED).1, copy);
    // 0-2 is implied, however short its pause.
    let beside = log(3, &[(0, 2, 1), (0, 1, 30), (1, 2, 40)]);
    assert_eq!(trimmed(&beside).1, log(3, &[(0, 1, 0), (1, 2, 0)]));
    assert_eq!(trimmed(&copied(&beside)).1, trimmed(&beside).1);
}
