//! The owned report, its lines, and the bytes of a log.

use zohapy::{Failure, LOG_BYTES, Refusal, Report, bytes_from_words, words_from_bytes};

/// A log of these links, one group for each.
fn log(n: u32, links: &[(u32, u32)]) -> Vec<u32> {
    let mut words = vec![0x1000_0000 | n];
    words.extend(links.iter().flat_map(|(from, to)| [0x2000_0000 | from, 0x3000_0000 | to]));
    words.push(0xF000_0000 | links.len() as u32);
    words
}

/// The report on a log of these links.
fn report(n: u32, links: &[(u32, u32)]) -> Report {
    Report::of(&log(n, links)).expect("the log has a report")
}

#[test]
fn the_whole_example_as_lists_and_as_lines() {
    let whole = report(5, &[(0, 1), (2, 3)]);
    let expected =
        Report { episodes: 5, links: 2, width: 3, apart: vec![1, 3, 4], threads: vec![vec![0, 1], vec![2, 3], vec![4]] };
    assert_eq!(whole, expected);
    assert_eq!(whole.to_string(), "episodes 5\nlinks 2\nwidth 3\napart 1 3 4\nthread 0 1\nthread 2 3\nthread 4\n");
}

#[test]
fn threads_may_share_an_episode() {
    let shared = report(5, &[(0, 2), (1, 2), (2, 3), (2, 4)]);
    assert_eq!((shared.width, &shared.apart[..]), (2, &[3, 4][..]));
    assert_eq!(shared.threads.len(), 2);
    for (steps, last) in shared.threads.iter().zip([3, 4]) {
        assert_eq!((steps.len(), &steps[1..]), (3, &[2, last][..]));
    }
    let mut firsts = [shared.threads[0][0], shared.threads[1][0]];
    firsts.sort();
    assert_eq!(firsts, [0, 1]);
}

#[test]
fn other_small_logs() {
    assert_eq!(report(0, &[]).to_string(), "episodes 0\nlinks 0\nwidth 0\napart\n");
    assert_eq!(report(1, &[]).to_string(), "episodes 1\nlinks 0\nwidth 1\napart 0\nthread 0\n");
    assert_eq!(report(3, &[(0, 1), (1, 2), (0, 2)]).to_string(), "episodes 3\nlinks 3\nwidth 1\napart 2\nthread 0 1 2\n");
    assert_eq!(report(2, &[(0, 1), (0, 1)]).to_string(), "episodes 2\nlinks 1\nwidth 1\napart 1\nthread 0 1\n");
    let diamond = report(4, &[(0, 1), (0, 2), (1, 3), (2, 3)]);
    assert_eq!((diamond.width, &diamond.apart[..]), (2, &[1, 2][..]));
}

#[test]
fn a_loop_and_a_refusal_are_failures() {
    let failure = Report::of(&log(2, &[(0, 1), (1, 0)])).expect_err("the log has a loop");
    assert_eq!(failure, Failure::Loop(vec![0, 1]));
    assert_eq!(failure.refusal(), Refusal { number: 13, place: 2 });
    assert_eq!(failure.to_string(), "refused 13 at 2\nloop 0 1\n");
    let failure = Report::of(&log(1, &[(0, 1)])).expect_err("episode 1 is not below 1");
    assert_eq!(failure, Failure::Refused(Refusal { number: 7, place: 2 }));
    assert_eq!(failure.to_string(), "refused 7 at 2\n");
    assert_eq!(Report::of(&[]), Err(Failure::Refused(Refusal { number: 1, place: 0 })));
}

#[test]
fn the_lowest_byte_is_first() {
    let words = [0x1000_0005, 0xF000_0000];
    let bytes = [0x05, 0, 0, 0x10, 0, 0, 0, 0xF0];
    assert_eq!(bytes_from_words(&words), bytes);
    assert_eq!(words_from_bytes(&bytes), Ok(words.to_vec()));
    assert_eq!(words_from_bytes(&[]), Ok(vec![]));
}

#[test]
fn bytes_are_refused_by_14_then_15() {
    assert_eq!(words_from_bytes(&vec![0; LOG_BYTES]).map(|words| words.len()), Ok(8314));
    assert_eq!(words_from_bytes(&vec![0; LOG_BYTES + 1]), Err(Refusal { number: 14, place: 33256 }));
    assert_eq!(words_from_bytes(&vec![0; LOG_BYTES + 4]), Err(Refusal { number: 14, place: 33256 }));
    assert_eq!(words_from_bytes(&vec![0; LOG_BYTES - 1]), Err(Refusal { number: 15, place: 33255 }));
    assert_eq!(words_from_bytes(&[0; 5]), Err(Refusal { number: 15, place: 5 }));
}
