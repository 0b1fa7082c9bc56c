//! Voices: their words, what each service makes of duets and doors, and refusals 19 to 21.

mod common;

use common::{OLD, copied, copy_need, copy_refusal, random, report_need, report_refusal, reported, trim_refusal, trimmed};
use zohapy::{
    Failure, Link, MOST_VOICES, MOST_WITH_VOICES, Mark, Outcome, Reading, Refusal, Report, TrimOutcome, WORK_WORDS, copy_words,
    copy_words_with_voices, episode, kind, link_count, links, marks, number, read, report_words, report_words_with_voices,
    thread, voices, voices_word,
};

const HEADER: &str = include_str!("../../include/zohapy.h");

/// A log with a voices word for each mark (episode, voices) and a group for each link.
fn log(n: u32, marks: &[(u32, u32)], links: &[(u32, u32)]) -> Vec<u32> {
    let mut words = vec![0x1000_0000 | n];
    words.extend(marks.iter().map(|(episode, voices)| 0x9000_0000 | voices << 16 | episode));
    words.extend(links.iter().flat_map(|(from, to)| [0x2000_0000 | from, 0x3000_0000 | to]));
    words.push(0xF000_0000 | links.len() as u32);
    words
}

/// The refusals of the three services that write, with buffers of these lengths.
fn refusals(log: &[u32], out_words: usize, work_words: usize) -> [Refusal; 3] {
    [report_refusal, copy_refusal, trim_refusal].map(|refusal| refusal(log, out_words, work_words))
}

/// The lines of the report on a log without loops.
fn lines(log: &[u32]) -> String {
    Report::of(log).expect("the log has a report").to_string()
}

/// The voices of each of `n` episodes.
fn voices_of(n: u32, marks: &[(u32, u32)]) -> Vec<usize> {
    let mut voices = vec![1; n as usize];
    marks.iter().for_each(|mark| voices[mark.0 as usize] = mark.1 as usize);
    voices
}

/// A mark for some of the episodes, in any order, those that say 1 too.
fn some_marks(n: u32, random: &mut impl FnMut(u32) -> u32) -> Vec<(u32, u32)> {
    let mut episodes: Vec<u32> = (0..n).collect();
    (0..n).for_each(|i| episodes.swap(i as usize, random(n) as usize));
    episodes.truncate(random(n + 1) as usize);
    episodes.into_iter().map(|episode| (episode, random(3))).collect()
}

/// Links to larger numbers.
fn rising_links(n: u32, count: u32, random: &mut impl FnMut(u32) -> u32) -> Vec<(u32, u32)> {
    (0..count).map(|_| (random(n), random(n))).filter(|link| link.0 < link.1).collect()
}

#[test]
fn a_voices_word_has_an_episode_and_voices() {
    assert_eq!(voices_word(3, 2), Some(0x9002_0003));
    assert_eq!(voices_word(0, 0), Some(0x9000_0000));
    assert_eq!(voices_word(65_535, 4_095), Some(0x9FFF_FFFF));
    for (marked, given) in [(0, 0), (3, 2), (119, 1), (65_535, 0), (65_535, 1), (0, 4_095), (0x5555, 0xAAA)] {
        let word = voices_word(marked, given).expect("the word has room");
        assert_eq!((kind(word), episode(word), voices(word)), (9, marked, given));
        assert_eq!(number(word), given * 65_536 + marked);
    }
    for (marked, given) in [(65_536, 0), (0, 4_096), (65_536, 4_096), (u32::MAX, 0), (0, u32::MAX)] {
        assert_eq!(voices_word(marked, given), None);
    }
}

#[test]
fn the_ceilings_are_those_of_the_header_and_of_the_library() {
    let named = |name: &str| HEADER.lines().filter_map(|line| line.strip_prefix(name)).map(String::from).collect::<Vec<_>>();
    assert_eq!(named("#define ZOHAPY_MOST_WITH_VOICES "), [MOST_WITH_VOICES.to_string()]);
    assert_eq!(named("#define ZOHAPY_MOST_VOICES "), [MOST_VOICES.to_string()]);
    let most = MOST_WITH_VOICES as u32;
    assert_eq!(read(&log(most, &[(0, MOST_VOICES)], &[])), Ok(Reading { episodes: MOST_WITH_VOICES, links: 0 }));
    assert_eq!(read(&log(most + 1, &[(0, MOST_VOICES)], &[])), Err(Refusal { number: 20, place: 1 }));
    assert_eq!(read(&log(most, &[(0, MOST_VOICES + 1)], &[])), Err(Refusal { number: 19, place: 1 }));
}

#[test]
fn marks_come_in_the_order_of_the_log() {
    let given = [(3, 2), (0, 1), (4, 0)];
    let expected = given.map(|(episode, voices)| Mark { episode, voices });
    assert_eq!(marks(&log(5, &given, &[(0, 1), (3, 4)])), Ok(expected.to_vec()));
    assert_eq!(marks(&log(5, &given, &[])), Ok(expected.to_vec()));
    assert_eq!(marks(&log(5, &[], &[(0, 1)])), Ok(vec![]));
    assert_eq!(marks(&log(5, &[(5, 2)], &[])), Err(Refusal { number: 7, place: 1 }));
    // Voices words give no link and are no to words.
    let log = log(5, &given, &[(0, 1), (3, 4)]);
    assert_eq!(links(&log), Ok([(0, 1), (3, 4)].map(|(from, to)| Link { from, to, pause: 0 }).to_vec()));
    assert_eq!(read(&log), Ok(Reading { episodes: 5, links: 2 }));
    assert_eq!(link_count(&log), Ok(2));
}

#[test]
fn one_episode_with_0_1_and_2_voices() {
    assert_eq!(reported(&log(1, &[(0, 0)], &[])).1, [0x4000_0000, 0xF000_0001]);
    assert_eq!(lines(&log(1, &[(0, 0)], &[])), "episodes 1\nlinks 0\nwidth 0\napart\n");
    assert_eq!(lines(&log(1, &[(0, 1)], &[])), "episodes 1\nlinks 0\nwidth 1\napart 0\nthread 0\n");
    let duet = [0x4000_0002, 0x5000_0000, 0x6000_0001, 0x7000_0000, 0x6000_0001, 0x7000_0000, 0xF000_0006];
    assert_eq!(reported(&log(1, &[(0, 2)], &[])), (Outcome::Report(7), duet.to_vec()));
    let report = Report::of(&log(1, &[(0, 2)], &[])).expect("the log has a report");
    assert_eq!((report.width, report.apart, report.threads), (2, vec![0], vec![vec![0], vec![0]]));
    // Thread 1 is a stretch of the report behind one apart word.
    assert_eq!(thread(&duet, 1), Ok(&duet[5..6]));
    assert_eq!(thread(&duet, 2), Err(Refusal { number: 17, place: 0 }));
}

#[test]
fn the_apart_set_is_the_furthest_of_the_heaviest() {
    let path = &[(0, 1)][..];
    assert_eq!(lines(&log(2, &[(0, 2)], path)), "episodes 2\nlinks 1\nwidth 2\napart 0\nthread 0 1\nthread 0\n");
    assert_eq!(lines(&log(2, &[(1, 2)], path)), "episodes 2\nlinks 1\nwidth 2\napart 1\nthread 0 1\nthread 1\n");
    assert_eq!(lines(&log(2, &[(0, 0), (1, 2)], path)), "episodes 2\nlinks 1\nwidth 2\napart 1\nthread 1\nthread 1\n");
    assert_eq!(lines(&log(2, &[(1, 2), (0, 2)], path)), "episodes 2\nlinks 1\nwidth 2\napart 1\nthread 0 1\nthread 0 1\n");
    // The duet 0 is as heavy as 1 and 2, which are further; the duet 2 is as heavy as 0 and 1, and further.
    assert_eq!(lines(&log(3, &[(0, 2)], &[(0, 1), (0, 2)])), "episodes 3\nlinks 2\nwidth 2\napart 1 2\nthread 0 1\nthread 0 2\n");
    assert_eq!(lines(&log(3, &[(2, 2)], &[(0, 2), (1, 2)])), "episodes 3\nlinks 2\nwidth 2\napart 2\nthread 0 2\nthread 1 2\n");
    // Two duets are heavier than the three before them.
    let crossed = [(0, 3), (0, 4), (1, 3), (1, 4), (2, 3), (2, 4)];
    let report = Report::of(&log(5, &[(3, 2), (4, 2)], &crossed)).expect("the log has a report");
    assert_eq!((report.width, report.apart), (4, vec![3, 4]));
}

#[test]
fn a_door_is_passed_and_is_no_member() {
    assert_eq!(lines(&log(3, &[(1, 0)], &[(0, 1), (1, 2)])), "episodes 3\nlinks 2\nwidth 1\napart 2\nthread 0 1 2\n");
    let doors: Vec<_> = (0..5).map(|episode| (episode, 0)).collect();
    assert_eq!(lines(&log(5, &doors, &[(0, 1), (1, 2)])), "episodes 5\nlinks 2\nwidth 0\napart\n");
    // A loop of doors is a loop.
    let looped = log(2, &doors[..2], &[(0, 1), (1, 0)]);
    assert_eq!(Report::of(&looped), Err(Failure::Loop(vec![0, 1])));
    assert_eq!(trimmed(&looped).0, TrimOutcome::Loop(2));
}

#[test]
fn each_question_of_a_voices_word_has_its_refusal() {
    let head = |n: u32| 0x1000_0000 | n;
    let rows: [(&[u32], u32, usize); 16] = [
        (&[head(121), 0x9001_0000, 0xF000_0000], 20, 1),
        (&[head(121), 0x9003_0079, 0xF000_0000], 20, 1),
        (&[head(5), 0x9002_0005, 0xF000_0000], 7, 1),
        (&[head(5), 0x9003_0005, 0xF000_0000], 7, 1),
        (&[head(0), 0x9000_0000, 0xF000_0000], 7, 1),
        (&[head(5), 0x9002_0003, 0x9003_0003, 0xF000_0000], 19, 2),
        (&[head(5), 0x9FFF_0004, 0xF000_0000], 19, 1),
        (&[head(5), 0x9002_0003, 0x9000_0004, 0x9001_0003, 0xF000_0000], 21, 3),
        (&[head(5), 0x9001_0003, 0x9001_0003, 0xF000_0000], 21, 2),
        (&[head(5), 0x2000_0000, 0x3000_0001, 0x9002_0003, 0xF000_0001], 4, 3),
        (&[head(121), 0x2000_0000, 0x3000_0001, 0x9FFF_FFFF, 0xF000_0001], 4, 3),
        (&[head(5), 0x9002_0003, 0x3000_0001, 0xF000_0001], 5, 2),
        (&[head(5), 0x2000_0000, 0x9002_0003, 0xF000_0000], 6, 1),
        (&[head(5), 0x9002_0003], 9, 1),
        (&[head(5), 0x9002_0003, 0xF000_0001], 10, 2),
        (&[head(201), 0x9002_0003, 0xF000_0000], 3, 0),
    ];
    for (log, number, place) in rows {
        let refusal = Refusal { number, place };
        assert_eq!(read(log), Err(refusal), "{log:08X?}");
        assert_eq!(link_count(log), Err(refusal), "{log:08X?}");
        assert_eq!(marks(log), Err(refusal), "{log:08X?}");
        assert_eq!(refusals(log, 0, 0), [refusal; 3], "{log:08X?}");
        assert_eq!(refusals(log, report_words(200), WORK_WORDS), [refusal; 3], "{log:08X?}");
        assert_eq!(Report::of(log), Err(Failure::Refused(refusal)), "{log:08X?}");
    }
}

#[test]
fn question_11_asks_for_more_where_there_is_a_voices_word() {
    // 2 + 3 * 2 + 2 * 2 words for a report, and 2 + 2 * 1 + 1 for a copy, though the voices word says 1.
    let one = log(2, &[(1, 1)], &[(0, 1)]);
    let needed = |place| Refusal { number: 11, place };
    assert_eq!(refusals(&one, 4, WORK_WORDS), [needed(12), needed(5), needed(5)]);
    assert_eq!(report_refusal(&one, 11, WORK_WORDS), needed(12));
    assert_eq!(refusals(&one, 12, WORK_WORDS - 1), [Refusal { number: 12, place: 16384 }; 3]);
    assert_eq!((report_words_with_voices(2), copy_words_with_voices(1, 1)), (12, 5));
    assert_eq!((report_words_with_voices(120), report_words(200)), (7682, 10502));
    assert_eq!((copy_words_with_voices(4096, 120), copy_words(4096)), (8314, 8194));
    assert_eq!((report_need(&one), copy_need(&one)), (12, 5));
    // The longest log, and one to word more.
    let ones: Vec<_> = (0..120).map(|episode| (episode, 1)).collect();
    assert_eq!(read(&log(120, &ones, &[(0, 1); 4096])), Ok(Reading { episodes: 120, links: 4096 }));
    assert_eq!(read(&log(120, &ones, &[(0, 1); 4097])), Err(Refusal { number: 8, place: 8314 }));
    assert_eq!(copied(&log(120, &ones, &[(0, 1); 4096])), log(120, &[], &[(0, 1)]));
}

#[test]
fn copies_have_other_voices_than_1_rising() {
    let copy = log(4, &[(0, 2), (3, 0)], &[(0, 1), (1, 2)]);
    let given = log(4, &[(3, 0), (1, 1), (0, 2)], &[(1, 2), (0, 1)]);
    assert_eq!(copied(&given), copy);
    assert_eq!(copied(&copy), copy);
    assert_eq!(trimmed(&given), (TrimOutcome::Trimmed(8), copy.clone()));
    // 0-2 is implied, though 1 is a door.
    assert_eq!(trimmed(&log(3, &[(1, 0)], &[(0, 2), (0, 1), (1, 2)])).1, log(3, &[(1, 0)], &[(0, 1), (1, 2)]));
    // Voices are compared, those that are 1 without a word.
    for others in [&[(0, 2)][..], &[(3, 0)], &[(0, 2), (3, 2)], &[(0, 0), (3, 2)], &[(0, 2), (2, 0)], &[]] {
        assert_ne!(copied(&log(4, others, &[(0, 1), (1, 2)])), copy);
        assert_ne!(trimmed(&log(4, others, &[(0, 1), (1, 2)])).1, copy);
    }
    // In version 1 the fair copy keeps the version, the trimmed copy does not.
    let of_1 = [0x1100_0002, 0x9002_0001, 0x2000_0000, 0x3169_0001, 0xF000_0001];
    assert_eq!(copied(&of_1), of_1);
    assert_eq!(trimmed(&of_1).1, [0x1000_0002, 0x9002_0001, 0xF000_0000]);
}

#[test]
fn of_120_duets_the_width_is_240_and_of_a_chain_of_them_2() {
    let duets: Vec<_> = (0..120).rev().map(|episode| (episode, 2)).collect();
    let report = Report::of(&log(120, &duets, &[])).expect("the log has a report");
    assert_eq!((report.width, report.apart), (240, (0..120).collect()));
    assert_eq!(report.threads, (0..240).map(|i| vec![i / 2]).collect::<Vec<Vec<u32>>>());
    let chain: Vec<_> = (0..119).map(|from| (from, from + 1)).collect();
    let report = Report::of(&log(120, &duets, &chain)).expect("the log has a report");
    assert_eq!((report.width, report.apart), (2, vec![119]));
    assert_eq!(report.threads, vec![(0..120).collect::<Vec<u32>>(); 2]);
}

#[test]
fn threads_cover_the_voices_and_stand_in_the_members_order() {
    let mut random = random();
    for round in 0..400 {
        let n = 1 + random([3, 8, 20, 120][round % 4]);
        let marks = some_marks(n, &mut random);
        let count = random(3 * n);
        let links = rising_links(n, count, &mut random);
        let voices = voices_of(n, &marks);
        let report = Report::of(&log(n, &marks, &links)).expect("the log has a report");
        let passing = |v: u32| report.threads.iter().filter(|steps| steps.contains(&v)).count();
        assert!((0..n).all(|v| passing(v) >= voices[v as usize]));
        assert!(report.threads.iter().flat_map(|steps| steps.windows(2)).all(|pair| links.contains(&(pair[0], pair[1]))));
        // Member after member, each as often as it has voices.
        let members: Vec<u32> = report.apart.iter().flat_map(|v| vec![*v; voices[*v as usize]]).collect();
        assert!(report.apart.iter().all(|v| voices[*v as usize] > 0 && passing(*v) == voices[*v as usize]));
        assert_eq!((report.width, report.threads.len()), (members.len(), members.len()));
        assert!(report.threads.iter().zip(&members).all(|(steps, member)| steps.contains(member)));
    }
}

#[test]
fn voices_words_that_say_1_change_no_report_and_their_order_no_answer() {
    let mut random = random();
    for _ in 0..200 {
        let n = 1 + random(12);
        let count = random(2 * n);
        let links: Vec<_> = (0..count).map(|_| (random(n), random(n))).collect();
        let ones: Vec<_> = (0..n).map(|episode| (episode, 1)).collect();
        assert_eq!(reported(&log(n, &ones, &links)), reported(&log(n, &[], &links)));
        assert_eq!(copied(&log(n, &ones, &links)), copied(&log(n, &[], &links)));
        assert_eq!(trimmed(&log(n, &ones, &links)), trimmed(&log(n, &[], &links)));
        let marks = some_marks(n, &mut random);
        let turned: Vec<_> = marks.iter().rev().copied().collect();
        assert_eq!(reported(&log(n, &marks, &links)), reported(&log(n, &turned, &links)));
        assert_eq!(copied(&log(n, &marks, &links)), copied(&log(n, &turned, &links)));
        assert_eq!(trimmed(&log(n, &marks, &links)), trimmed(&log(n, &turned, &links)));
    }
}

#[test]
fn a_copy_has_the_voices_of_its_log() {
    let mut random = random();
    for round in 0..200 {
        let n = 1 + random([3, 20, 120][round % 3]);
        let given = some_marks(n, &mut random);
        let count = random(2 * n);
        let links = rising_links(n, count, &mut random);
        let whole = log(n, &given, &links);
        let mut rising: Vec<_> = given.iter().copied().filter(|mark| mark.1 != 1).collect();
        rising.sort();
        let rising: Vec<_> = rising.into_iter().map(|(episode, voices)| Mark { episode, voices }).collect();
        let of_log = Report::of(&whole).expect("the log has a report");
        for copy in [copied(&whole), trimmed(&whole).1] {
            assert_eq!(marks(&copy).as_ref(), Ok(&rising));
            let of_copy = Report::of(&copy).expect("the copy has a report");
            assert_eq!((of_copy.width, &of_copy.apart), (of_log.width, &of_log.apart));
        }
    }
}

#[test]
fn a_report_on_voices_leaves_what_stands_behind_it() {
    let duet = log(1, &[(0, 2)], &[]);
    let (mut out, mut work) = (vec![OLD; 10], vec![OLD; WORK_WORDS + 1]);
    assert_eq!(zohapy::report(&duet, &mut out, &mut work), Outcome::Report(7));
    assert!(out[7..].iter().chain(&work[WORK_WORDS..]).all(|word| *word == OLD));
    assert!(work[..WORK_WORDS].iter().all(|word| *word == 0));
}
