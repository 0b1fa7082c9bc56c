//! Versions of logs: which links count in version 1, what each service makes of the others, and refusal 18.

mod common;

use std::collections::BTreeMap;

use common::{copied, copy_refusal, random, report_refusal, reported, trim_refusal, trimmed};
use zohapy::{
    Failure, LONGEST_PAUSE, Link, Outcome, Reading, Refusal, Report, TrimOutcome, WORK_WORDS, counts, head_episodes,
    head_version, head_word, kind, link_count, links, number, read, report_words,
};

const HEADER: &str = include_str!("../../include/zohapy.h");

/// 4 episodes; 0-1 after 360 minutes, 1-2 after 400 and again after 200, 2-3 after 361. In version 1 the last does not count.
const LINKS: [(u32, u32, u32); 4] = [(0, 1, 360), (1, 2, 400), (1, 2, 200), (2, 3, 361)];

/// A log of links (from, to, pause), one group for each.
fn log(version: u32, n: u32, links: &[(u32, u32, u32)]) -> Vec<u32> {
    let mut words = vec![0x1000_0000 | version << 24 | n];
    words.extend(links.iter().flat_map(|(from, to, pause)| [0x2000_0000 | from, 0x3000_0000 | pause << 16 | to]));
    words.push(0xF000_0000 | links.len() as u32);
    words
}

/// The refusals of the three services that write, with buffers of these lengths.
fn refusals(log: &[u32], out_words: usize, work_words: usize) -> [Refusal; 3] {
    [report_refusal, copy_refusal, trim_refusal].map(|refusal| refusal(log, out_words, work_words))
}

/// The least pause of each link.
fn least_pauses(links: &[(u32, u32, u32)]) -> BTreeMap<(u32, u32), u32> {
    let mut least = BTreeMap::new();
    for &(from, to, pause) in links {
        least.entry((from, to)).and_modify(|least: &mut u32| *least = pause.min(*least)).or_insert(pause);
    }
    least
}

#[test]
fn a_head_has_a_version_and_episodes() {
    assert_eq!(head_word(0, 5), Some(0x1000_0005));
    assert_eq!(head_word(1, 200), Some(0x1100_00C8));
    assert_eq!(head_word(15, 0xFF_FFFF), Some(0x1FFF_FFFF));
    for (version, episodes) in [(0, 0), (1, 0), (0, 0xFF_FFFF), (15, 0), (2, 201), (5, 0x5A_A5A5)] {
        let word = head_word(version, episodes).expect("the word has room");
        assert_eq!((kind(word), head_version(word), head_episodes(word)), (1, version, episodes));
        assert_eq!(number(word), version * 16_777_216 + episodes);
    }
    for (version, episodes) in [(16, 0), (0, 1 << 24), (16, 1 << 24), (u32::MAX, 0), (0, u32::MAX)] {
        assert_eq!(head_word(version, episodes), None);
    }
}

#[test]
fn the_longest_pause_is_that_of_the_header_and_of_the_library() {
    let named = HEADER.lines().filter_map(|line| line.strip_prefix("#define ZOHAPY_LONGEST_PAUSE "));
    assert_eq!(named.collect::<Vec<_>>(), [LONGEST_PAUSE.to_string()]);
    assert_eq!(link_count(&log(1, 2, &[(0, 1, LONGEST_PAUSE)])), Ok(1));
    assert_eq!(link_count(&log(1, 2, &[(0, 1, LONGEST_PAUSE + 1)])), Ok(0));
    for pause in 0..4096 {
        for version in [0, 1] {
            let log = log(version, 2, &[(0, 1, pause)]);
            assert_eq!(link_count(&log), Ok(usize::from(counts(version, pause))), "version {version}, {pause} minutes");
        }
    }
}

#[test]
fn no_link_counts_in_other_versions() {
    assert!((2..16).all(|version| !counts(version, 0)));
}

#[test]
fn version_1_reports_on_the_links_that_count() {
    // 0-1 and 1-2 count, so 3 is alone.
    let words = [
        0x4000_0002,
        0x5000_0002,
        0x5000_0003,
        0x6000_0003,
        0x7000_0000,
        0x7000_0001,
        0x7000_0002,
        0x6000_0001,
        0x7000_0003,
        0xF000_0009,
    ];
    assert_eq!(reported(&log(1, 4, &LINKS)), (Outcome::Report(10), words.to_vec()));
    let lines = "episodes 4\nlinks 2\nwidth 2\napart 2 3\nthread 0 1 2\nthread 3\n";
    assert_eq!(Report::of(&log(1, 4, &LINKS)).expect("there is no loop").to_string(), lines);
    // In version 0 all do.
    let lines = "episodes 4\nlinks 3\nwidth 1\napart 3\nthread 0 1 2 3\n";
    assert_eq!(Report::of(&log(0, 4, &LINKS)).expect("there is no loop").to_string(), lines);
}

#[test]
fn a_link_counts_by_its_least_pause_wherever_that_stands() {
    let rows = [
        (&[400, 200][..], 1),
        (&[200, 400], 1),
        (&[361, 360], 1),
        (&[360, 361], 1),
        (&[4095, 500, 0, 361], 1),
        (&[400, 361], 0),
        (&[361, 361], 0),
        (&[4095, 500, 400], 0),
    ];
    for (pauses, count) in rows {
        let given: Vec<_> = pauses.iter().map(|&pause| (0, 1, pause)).collect();
        assert_eq!(link_count(&log(1, 2, &given)), Ok(count), "{pauses:?}");
        assert_eq!(link_count(&log(0, 2, &given)), Ok(1), "{pauses:?}");
        assert_eq!(Report::of(&log(1, 2, &given)).map(|report| report.width), Ok(2 - count), "{pauses:?}");
        // With other links between them, and in one group.
        let parted: Vec<_> = given.iter().flat_map(|&link| [link, (1, 2, 400)]).collect();
        assert_eq!(link_count(&log(1, 3, &parted)), Ok(count), "{pauses:?}");
        let mut group = vec![0x1100_0002, 0x2000_0000];
        group.extend(pauses.iter().map(|pause| 0x3000_0001 | pause << 16));
        group.push(0xF000_0000 | pauses.len() as u32);
        assert_eq!(link_count(&group), Ok(count), "{pauses:?}");
    }
    // The other direction is another link.
    assert_eq!(link_count(&log(1, 2, &[(0, 1, 400), (1, 0, 200)])), Ok(1));
}

#[test]
fn a_loop_is_one_of_links_that_count() {
    for closing in [(2, 0, 361), (1, 1, 400), (2, 1, 4095)] {
        let given = [(0, 1, 5), (1, 2, 360), closing];
        let words = [0x4000_0001, 0x5000_0002, 0x6000_0003, 0x7000_0000, 0x7000_0001, 0x7000_0002, 0xF000_0006];
        assert_eq!(reported(&log(1, 3, &given)), (Outcome::Report(7), words.to_vec()));
        assert!(matches!(trimmed(&log(1, 3, &given)).0, TrimOutcome::Trimmed(_)));
        assert!(matches!(reported(&log(0, 3, &given)).0, Outcome::Loop(_)));
        assert!(matches!(trimmed(&log(0, 3, &given)).0, TrimOutcome::Loop(_)));
    }
    // 0-1-2-0 is the only one that counts.
    let given = [(1, 0, 361), (0, 1, 7), (1, 2, 360), (2, 0, 0), (1, 1, 361)];
    let shown = vec![0x8000_0003, 0x7000_0000, 0x7000_0001, 0x7000_0002];
    assert_eq!(reported(&log(1, 3, &given)), (Outcome::Loop(3), shown.clone()));
    assert_eq!(trimmed(&log(1, 3, &given)), (TrimOutcome::Loop(3), shown));
    assert_eq!(Report::of(&log(1, 3, &given)), Err(Failure::Loop(vec![0, 1, 2])));
    assert_eq!(link_count(&log(1, 3, &given)), Ok(3));
}

#[test]
fn to_words_of_links_that_do_not_count_are_read() {
    assert_eq!(read(&log(1, 4, &LINKS)), Ok(Reading { episodes: 4, links: 4 }));
    let expected = LINKS.map(|(from, to, pause)| Link { from, to, pause });
    assert_eq!(links(&log(1, 4, &LINKS)), Ok(expected.to_vec()));
    // Questions 3, 7, 8 and 10.
    let refused = |number, place| Err(Refusal { number, place });
    assert_eq!(read(&log(1, 200, &[])), Ok(Reading { episodes: 200, links: 0 }));
    assert_eq!(read(&log(1, 201, &[])), refused(3, 0));
    assert_eq!(read(&log(1, 0xFF_FFFF, &[])), refused(3, 0));
    assert_eq!(read(&log(1, 4, &[(0, 4, 361)])), refused(7, 2));
    assert_eq!(read(&log(1, 4, &[(4, 0, 361)])), refused(7, 1));
    assert_eq!(read(&log(1, 4, &[(0, 1, 361); 4096])), Ok(Reading { episodes: 4, links: 4096 }));
    assert_eq!(read(&log(1, 4, &[(0, 1, 361); 4097])), refused(8, 8194));
    assert_eq!(link_count(&log(1, 4, &[(0, 1, 361); 4097])), Err(Refusal { number: 8, place: 8194 }));
    assert_eq!(read(&[0x1100_0004, 0x2000_0000, 0x3169_0001, 0xF000_0000]), refused(10, 3));
}

#[test]
fn question_11_asks_for_all_to_words() {
    let log = log(1, 4, &LINKS);
    let needed = |place| Refusal { number: 11, place };
    assert_eq!(refusals(&log, 9, WORK_WORDS), [needed(16), needed(10), needed(10)]);
    assert_eq!(refusals(&log, 16, WORK_WORDS - 1), [Refusal { number: 12, place: 16384 }; 3]);
    assert_eq!(copied(&log).len(), 8);
    assert_eq!(trimmed(&log).0, TrimOutcome::Trimmed(6));
}

#[test]
fn a_fair_copy_keeps_the_version_and_every_link() {
    let copy = log(1, 4, &[(0, 1, 360), (1, 2, 200), (2, 3, 361)]);
    assert_eq!(copied(&log(1, 4, &LINKS)), copy);
    assert_eq!(copied(&copy), copy);
    assert_eq!(copied(&log(1, 2, &[(1, 0, 500), (1, 0, 400), (0, 0, 361)])), log(1, 2, &[(0, 0, 361), (1, 0, 400)]));
    assert_eq!(copied(&log(1, 0, &[])), [0x1100_0000, 0xF000_0000]);
    // Where all else is equal, versions are compared.
    for given in [&[][..], &[(0, 1, 5)], &[(0, 1, 361)], &LINKS] {
        let [of_0, of_1] = [0, 1].map(|version| copied(&log(version, 4, given)));
        assert_eq!((of_0[0], of_1[0]), (0x1000_0004, 0x1100_0004));
        assert_eq!(of_0[1..], of_1[1..]);
    }
}

#[test]
fn a_trimmed_copy_is_of_version_0_and_has_links_that_count_and_stay() {
    let path = log(0, 4, &[(0, 1, 0), (1, 2, 0)]);
    assert_eq!(trimmed(&log(1, 4, &LINKS)), (TrimOutcome::Trimmed(6), path.clone()));
    assert_eq!(trimmed(&path).1, path);
    assert_eq!(trimmed(&copied(&log(1, 4, &LINKS))).1, path);
    assert_eq!(trimmed(&log(1, 0, &[])).1, [0x1000_0000, 0xF000_0000]);
    // 0-2 stays where a link of the path beside it does not count.
    let given = [(0, 1, 10), (1, 2, 361), (0, 2, 20)];
    assert_eq!(trimmed(&log(1, 3, &given)).1, [0x1000_0003, 0x2000_0000, 0x3000_0001, 0x3000_0002, 0xF000_0002]);
    assert_eq!(trimmed(&log(0, 3, &given)).1, log(0, 3, &[(0, 1, 0), (1, 2, 0)]));
}

#[test]
fn any_version_but_0_and_1_is_refused_by_18_in_both_forms() {
    let refusal = Refusal { number: 18, place: 0 };
    for version in 2..16 {
        // Whatever else would be refused: 201 episodes, a word of no kind, an episode too high, no end.
        let mut logs = vec![log(version, 4, &LINKS), log(version, 0, &[]), log(version, 201, &[]), log(version, 1, &LINKS)];
        logs.push(vec![0x1000_0000 | version << 24 | 4, 0x7000_0000, 0xF000_0000]);
        logs.push(vec![0x1000_0000 | version << 24 | 4, 0x2000_0000]);
        for log in logs {
            assert_eq!(read(&log), Err(refusal));
            assert_eq!(link_count(&log), Err(refusal));
            assert_eq!(links(&log), Err(refusal));
            assert_eq!(refusals(&log, 0, 0), [refusal; 3]);
            assert_eq!(refusals(&log, report_words(200), WORK_WORDS), [refusal; 3]);
            let failure = Report::of(&log).expect_err("the log is refused");
            assert_eq!(failure, Failure::Refused(refusal));
            assert_eq!(failure.to_string(), "refused 18 at 0\n");
        }
        // Questions 1 and 2 come first.
        assert_eq!(read(&[0x1000_0000 | version << 24]), Err(Refusal { number: 1, place: 0 }));
        assert_eq!(read(&[0x2000_0000 | version << 24, 0xF000_0000]), Err(Refusal { number: 2, place: 0 }));
    }
}

#[test]
fn version_1_is_version_0_with_the_links_that_count() {
    let mut random = random();
    let (mut loops, mut wider) = (0, 0);
    for round in 0..600 {
        let n = 1 + random([3, 8, 20, 200][round % 4]);
        // Pauses round the longest, so that repeats make links count.
        let given: Vec<_> = (0..random(3 * n)).map(|_| (random(n), random(n), 357 + random(9))).collect();
        let rising: Vec<_> = given.iter().copied().filter(|link| link.0 < link.1).collect();
        for given in [given, rising] {
            let counting: Vec<_> =
                least_pauses(&given).into_iter().filter(|link| link.1 <= 360).map(|((from, to), _)| (from, to, 0)).collect();
            let (whole, part) = (log(1, n, &given), log(0, n, &counting));
            assert_eq!(link_count(&whole), Ok(counting.len()));
            let copies = (trimmed(&whole), trimmed(&part));
            match (Report::of(&whole), Report::of(&part)) {
                (Ok(whole), Ok(part)) => {
                    assert_eq!((whole.episodes, whole.links), (part.episodes, part.links));
                    assert_eq!((whole.width, &whole.apart), (part.width, &part.apart));
                    let mut steps = whole.threads.iter().flat_map(|steps| steps.windows(2));
                    assert!(steps.all(|pair| counting.contains(&(pair[0], pair[1], 0))));
                    assert_eq!(copies.0, copies.1);
                }
                (Err(Failure::Loop(shown)), Err(Failure::Loop(_))) => {
                    loops += 1;
                    let next = shown.iter().cycle().skip(1);
                    assert!(shown.iter().zip(next).all(|(&from, &to)| counting.contains(&(from, to, 0))));
                    assert!(matches!(copies, ((TrimOutcome::Loop(_), _), (TrimOutcome::Loop(_), _))));
                }
                answers => panic!("{answers:?}"),
            }
            // Of the same log version 0 never has a greater width, and often a lesser one.
            if let (Ok(of_0), Ok(of_1)) = (Report::of(&log(0, n, &given)), Report::of(&whole)) {
                assert!(of_0.width <= of_1.width);
                wider += usize::from(of_0.width < of_1.width);
            }
        }
    }
    assert!(loops > 100 && wider > 100, "{loops} {wider}");
}

#[test]
fn where_no_pause_is_long_version_1_is_version_0() {
    let mut random = random();
    for _ in 0..200 {
        let n = 1 + random(20);
        let given: Vec<_> = (0..random(30)).map(|_| (random(n), random(n), random(361))).collect();
        let logs = [0, 1].map(|version| log(version, n, &given));
        assert_eq!(Report::of(&logs[0]), Report::of(&logs[1]));
        assert_eq!(link_count(&logs[0]), link_count(&logs[1]));
        assert_eq!(trimmed(&logs[0]), trimmed(&logs[1]));
    }
}
