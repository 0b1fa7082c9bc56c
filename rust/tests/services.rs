//! The services that take words, on lent buffers: the small logs worked through, the refusals of logs without voices words, and what
//! is left in the buffers.

mod common;

use common::{OLD, copy_refusal, report_refusal, reported, trim_refusal, trimmed};
use zohapy::{
    Outcome, Reading, Refusal, TrimOutcome, WORK_WORDS, copy_words, fair_copy, link_count, read, report_words, thread,
    trimmed_copy,
};

/// The whole example and its report.
const WHOLE: [u32; 6] = [0x1000_0005, 0x2000_0000, 0x3000_0001, 0x2000_0002, 0x3000_0003, 0xF000_0002];
const WHOLE_REPORT: [u32; 13] = [
    0x4000_0003,
    0x5000_0001,
    0x5000_0003,
    0x5000_0004,
    0x6000_0002,
    0x7000_0000,
    0x7000_0001,
    0x6000_0002,
    0x7000_0002,
    0x7000_0003,
    0x6000_0001,
    0x7000_0004,
    0xF000_000C,
];

/// A log of these links, one group for each.
fn log(n: u32, links: &[(u32, u32)]) -> Vec<u32> {
    let mut words = vec![0x1000_0000 | n];
    words.extend(links.iter().flat_map(|(from, to)| [0x2000_0000 | from, 0x3000_0000 | to]));
    words.push(0xF000_0000 | links.len() as u32);
    words
}

#[test]
fn the_whole_example_is_read_counted_reported_and_copied() {
    assert_eq!(read(&WHOLE), Ok(Reading { episodes: 5, links: 2 }));
    assert_eq!(link_count(&WHOLE), Ok(2));
    assert_eq!(reported(&WHOLE), (Outcome::Report(13), WHOLE_REPORT.to_vec()));
    let (mut out, mut work) = (vec![OLD; copy_words(2) + 1], vec![OLD; WORK_WORDS + 1]);
    assert_eq!(fair_copy(&WHOLE, &mut out, &mut work), Ok(6));
    assert_eq!(out, [&WHOLE[..], &[OLD]].concat());
    assert!(work[..WORK_WORDS].iter().all(|word| *word == 0));
    assert_eq!(work[WORK_WORDS], OLD);
    assert_eq!(trimmed(&WHOLE), (TrimOutcome::Trimmed(6), WHOLE.to_vec()));
}

#[test]
fn small_logs_have_the_reports_worked_out_by_hand() {
    assert_eq!(reported(&log(0, &[])).1, [0x4000_0000, 0xF000_0001]);
    assert_eq!(reported(&log(1, &[])).1, [0x4000_0001, 0x5000_0000, 0x6000_0001, 0x7000_0000, 0xF000_0004]);
    let steps_0_1_2 = [0x4000_0001, 0x5000_0002, 0x6000_0003, 0x7000_0000, 0x7000_0001, 0x7000_0002, 0xF000_0006];
    assert_eq!(reported(&log(3, &[(0, 1), (1, 2), (0, 2)])).1, steps_0_1_2);
    let steps_0_1 = [0x4000_0001, 0x5000_0001, 0x6000_0002, 0x7000_0000, 0x7000_0001, 0xF000_0005];
    assert_eq!(reported(&log(2, &[(0, 1), (0, 1)])).1, steps_0_1);
}

#[test]
fn loops_are_shown_from_their_smallest_episode() {
    assert_eq!(reported(&log(2, &[(0, 1), (1, 0)])), (Outcome::Loop(2), vec![0x8000_0002, 0x7000_0000, 0x7000_0001]));
    assert_eq!(reported(&log(1, &[(0, 0)])), (Outcome::Loop(1), vec![0x8000_0001, 0x7000_0000]));
    let (outcome, words) = reported(&log(6, &[(5, 1), (1, 4), (4, 3), (3, 5), (0, 1)]));
    assert_eq!(outcome, Outcome::Loop(4));
    assert_eq!(words, [0x8000_0004, 0x7000_0001, 0x7000_0004, 0x7000_0003, 0x7000_0005]);
}

#[test]
fn each_question_of_the_reading_has_its_refusal() {
    let rows: [(&[u32], u32, usize); 15] = [
        (&[], 1, 0),
        (&[0x1000_0005], 1, 0),
        (&[0x2000_0005, 0xF000_0000], 2, 0),
        (&[0x1200_0005, 0xF000_0000], 18, 0),
        (&[0x1000_00C9, 0xF000_0000], 3, 0),
        (&[0x1000_0005, 0x7000_0000, 0xF000_0000], 4, 1),
        (&[0x1000_0005, 0x3000_0001, 0xF000_0001], 5, 1),
        (&[0x1000_0005, 0x2000_0001, 0xF000_0000], 6, 1),
        (&[0x1000_0005, 0x2000_0001, 0x2000_0001, 0x3000_0002, 0xF000_0001], 6, 1),
        (&[0x1000_0005, 0x2000_0001, 0x3000_0001], 6, 1),
        (&[0x1000_0005, 0x2000_0005, 0x3000_0001, 0xF000_0001], 7, 1),
        (&[0x1000_0005, 0x2000_0000, 0x3000_0005, 0xF000_0001], 7, 2),
        (&[0x1000_0005, 0x2000_0000, 0x3000_0001, 0x3000_0002], 9, 3),
        (&[0x1000_0005, 0x2000_0000, 0x3000_0001, 0xF000_0000], 10, 3),
        (&[0x1000_0005, 0xF000_0001], 10, 1),
    ];
    for (log, number, place) in rows {
        let refusal = Refusal { number, place };
        assert_eq!(read(log), Err(refusal), "{log:08X?}");
        assert_eq!(link_count(log), Err(refusal), "{log:08X?}");
        assert_eq!(report_refusal(log, 0, 0), refusal, "{log:08X?}");
        assert_eq!(copy_refusal(log, 0, 0), refusal, "{log:08X?}");
        assert_eq!(trim_refusal(log, 0, 0), refusal, "{log:08X?}");
    }
}

#[test]
fn two_hundred_episodes_and_4096_to_words_pass_and_no_more() {
    assert_eq!(read(&log(200, &[])), Ok(Reading { episodes: 200, links: 0 }));
    assert_eq!(read(&log(201, &[])), Err(Refusal { number: 3, place: 0 }));
    assert_eq!(read(&log(2, &[(0, 1); 4096])), Ok(Reading { episodes: 2, links: 4096 }));
    assert_eq!(read(&log(2, &[(0, 1); 4097])), Err(Refusal { number: 8, place: 8194 }));
    assert_eq!(link_count(&log(201, &[])), Err(Refusal { number: 3, place: 0 }));
    assert_eq!(link_count(&log(2, &[(0, 1); 4097])), Err(Refusal { number: 8, place: 8194 }));
}

#[test]
fn short_buffers_are_refused() {
    assert_eq!(report_refusal(&log(1, &[]), 4, WORK_WORDS), Refusal { number: 11, place: 5 });
    assert_eq!(report_refusal(&WHOLE, 20, 0), Refusal { number: 11, place: 21 });
    assert_eq!(report_refusal(&WHOLE, 21, WORK_WORDS - 1), Refusal { number: 12, place: 16384 });
    assert_eq!(copy_refusal(&WHOLE, 5, 0), Refusal { number: 11, place: 6 });
    assert_eq!(copy_refusal(&WHOLE, 6, WORK_WORDS - 1), Refusal { number: 12, place: 16384 });
    // The trimmed copy of this log has 6 words, and its 3 to words need 8.
    let beside = log(3, &[(0, 1), (1, 2), (0, 2)]);
    assert_eq!(trim_refusal(&beside, 7, WORK_WORDS), Refusal { number: 11, place: 8 });
    assert_eq!(trim_refusal(&beside, 7, 0), Refusal { number: 11, place: 8 });
    assert_eq!(trim_refusal(&beside, 8, WORK_WORDS - 1), Refusal { number: 12, place: 16384 });
    // A loop is asked for after both.
    let looped = log(200, &[(5, 5)]);
    assert_eq!(trim_refusal(&looped, 3, WORK_WORDS), Refusal { number: 11, place: 4 });
    assert_eq!(trim_refusal(&looped, 4, WORK_WORDS - 1), Refusal { number: 12, place: 16384 });
    assert_eq!(report_words(200), 10502);
    assert_eq!(copy_words(4096), 8194);
}

#[test]
fn a_fair_copy_sorts_and_drops_repeats_and_keeps_loops() {
    let (mut out, mut work) = (vec![OLD; copy_words(4)], vec![OLD; WORK_WORDS]);
    assert_eq!(fair_copy(&log(3, &[(2, 0), (0, 2), (0, 1), (0, 2)]), &mut out, &mut work), Ok(7));
    let copy = [0x1000_0003, 0x2000_0000, 0x3000_0001, 0x3000_0002, 0x2000_0002, 0x3000_0000, 0xF000_0003];
    assert_eq!(out[..7], copy);
    assert!(out[7..].iter().all(|word| *word == OLD));
}

#[test]
fn a_trimmed_copy_drops_links_beside_other_paths() {
    let path_0_1_2 = [0x1000_0003, 0x2000_0000, 0x3000_0001, 0x2000_0001, 0x3000_0002, 0xF000_0002];
    assert_eq!(trimmed(&log(3, &[(0, 1), (1, 2), (0, 2)])), (TrimOutcome::Trimmed(6), path_0_1_2.to_vec()));
    assert_eq!(trimmed(&log(3, &[(0, 2), (1, 2), (0, 2), (0, 1)])), (TrimOutcome::Trimmed(6), path_0_1_2.to_vec()));
    let path_2_1_0 = [0x1000_0003, 0x2000_0001, 0x3000_0000, 0x2000_0002, 0x3000_0001, 0xF000_0002];
    assert_eq!(trimmed(&log(3, &[(2, 0), (2, 1), (1, 0)])), (TrimOutcome::Trimmed(6), path_2_1_0.to_vec()));
    let path_0_1_2_3 = [0x1000_0004, 0x2000_0000, 0x3000_0001, 0x2000_0001, 0x3000_0002, 0x2000_0002, 0x3000_0003, 0xF000_0003];
    assert_eq!(trimmed(&log(4, &[(0, 3), (0, 1), (1, 2), (2, 3)])), (TrimOutcome::Trimmed(8), path_0_1_2_3.to_vec()));
}

#[test]
fn a_trimmed_copy_keeps_every_other_link_once() {
    assert_eq!(trimmed(&log(0, &[])), (TrimOutcome::Trimmed(2), vec![0x1000_0000, 0xF000_0000]));
    assert_eq!(trimmed(&log(200, &[])), (TrimOutcome::Trimmed(2), vec![0x1000_00C8, 0xF000_0000]));
    let once = [0x1000_0002, 0x2000_0000, 0x3000_0001, 0xF000_0001];
    assert_eq!(trimmed(&log(2, &[(0, 1), (0, 1)])), (TrimOutcome::Trimmed(4), once.to_vec()));
    let diamond =
        [0x1000_0004, 0x2000_0000, 0x3000_0001, 0x3000_0002, 0x2000_0001, 0x3000_0003, 0x2000_0002, 0x3000_0003, 0xF000_0004];
    assert_eq!(trimmed(&log(4, &[(0, 1), (0, 2), (1, 3), (2, 3)])), (TrimOutcome::Trimmed(9), diamond.to_vec()));
    assert_eq!(trimmed(&log(4, &[(2, 3), (1, 3), (0, 3), (0, 2), (0, 1)])), (TrimOutcome::Trimmed(9), diamond.to_vec()));
}

#[test]
fn of_all_rising_links_between_91_episodes_the_next_ones_are_left() {
    let mut links: Vec<(u32, u32)> = (0..91).flat_map(|to| (0..to).map(move |from| (from, to))).collect();
    links.push((0, 90));
    assert_eq!(links.len(), 4096);
    let next: Vec<(u32, u32)> = (0..90).map(|from| (from, from + 1)).collect();
    assert_eq!(trimmed(&log(91, &links)), (TrimOutcome::Trimmed(182), log(91, &next)));
}

#[test]
fn a_loop_is_shown_in_place_of_a_trimmed_copy() {
    assert_eq!(trimmed(&log(1, &[(0, 0)])), (TrimOutcome::Loop(1), vec![0x8000_0001, 0x7000_0000]));
    assert_eq!(trimmed(&log(2, &[(0, 1), (1, 0)])), (TrimOutcome::Loop(2), vec![0x8000_0002, 0x7000_0000, 0x7000_0001]));
    let (outcome, words) = trimmed(&log(6, &[(5, 1), (1, 4), (4, 3), (3, 5), (0, 1)]));
    assert_eq!(outcome, TrimOutcome::Loop(4));
    assert_eq!(words, [0x8000_0004, 0x7000_0001, 0x7000_0004, 0x7000_0003, 0x7000_0005]);
}

#[test]
fn a_trimmed_copy_or_its_loop_fits_the_words_needed() {
    let (mut out, mut work) = ([OLD; 4], vec![OLD; WORK_WORDS]);
    assert_eq!(trimmed_copy(&log(200, &[(5, 5)]), &mut out, &mut work), TrimOutcome::Loop(1));
    assert_eq!(out, [0x8000_0001, 0x7000_0005, OLD, OLD]);
    assert!(work.iter().all(|word| *word == 0));
    let (mut out, mut work) = ([OLD; 6], vec![OLD; WORK_WORDS]);
    assert_eq!(trimmed_copy(&WHOLE, &mut out, &mut work), TrimOutcome::Trimmed(6));
    assert_eq!(out, WHOLE);
    assert!(work.iter().all(|word| *word == 0));
}

#[test]
fn each_thread_is_a_stretch_of_the_report_itself() {
    for (i, place, length) in [(0, 5, 2), (1, 8, 2), (2, 11, 1)] {
        let steps = thread(&WHOLE_REPORT, i).expect("the report has this thread");
        assert!(std::ptr::eq(steps, &WHOLE_REPORT[place..place + length]));
    }
    let (no_report, no_thread) = (Refusal { number: 16, place: 0 }, Refusal { number: 17, place: 0 });
    assert_eq!(thread(&WHOLE_REPORT, 3), Err(no_thread));
    assert_eq!(thread(&WHOLE_REPORT, usize::MAX), Err(no_thread));
    assert_eq!(thread(&[0x4000_0000, 0xF000_0001], 0), Err(no_thread));
    assert_eq!(thread(&WHOLE_REPORT[..12], 0), Err(no_report));
    assert_eq!(thread(&[], 0), Err(no_report));
}
