//! Whether both programs answer rightly: each report is a cover and an apart set of equal weight, and both have the same apart set;
//! the trimmed copies and the link counts are equal, and so are the refusals; what is shown as a loop is one.

use crate::plain::Figures;
use crate::services::{Answer, LINK_COUNT, REPORT, Service, TRIMMED_COPY, Written};
use crate::shapes::{EPISODES, Numbers, half_long, log_of, marked, random, random_marks};
use std::collections::{BTreeSet, HashSet};
use zohapy::{
    LONGEST_PAUSE, MOST_WITH_VOICES, WORK_WORDS, episode, head_episodes, head_version, kind, number, pause, report_words, voices,
};

/// The voices words of a log: those behind its head.
fn voices_words(log: &[u32]) -> impl Iterator<Item = u32> {
    log[1..].iter().copied().take_while(|&word| kind(word) == 9)
}

/// What a log that passes has, by its head, its voices words and its end.
pub fn figures(log: &[u32]) -> Figures {
    let to_words = number(log[log.len() - 1]) as usize;
    Figures { episodes: head_episodes(log[0]) as usize, to_words, voices_words: voices_words(log).count() }
}

/// The voices of each episode of a log that passes.
fn voices_of(log: &[u32]) -> Vec<usize> {
    let mut given = vec![1; figures(log).episodes];
    voices_words(log).for_each(|word| given[episode(word) as usize] = voices(word) as usize);
    given
}

/// The links that count of a log that passes.
fn links_of(log: &[u32]) -> HashSet<(u32, u32)> {
    let mut from = 0;
    let mut links = HashSet::new();
    for &word in &log[1..log.len() - 1] {
        if kind(word) == 2 {
            from = number(word);
        } else if kind(word) == 3 && (head_version(log[0]) == 0 || pause(word) <= LONGEST_PAUSE) {
            links.insert((from, episode(word)));
        }
    }
    links
}

/// A report's words taken apart.
struct Report {
    apart: Vec<u32>,
    threads: Vec<Vec<u32>>,
}

fn numbers_of(words: &[u32], wanted: u32) -> Vec<u32> {
    assert!(words.iter().all(|&word| kind(word) == wanted));
    words.iter().map(|&word| number(word)).collect()
}

fn take_apart(words: &[u32]) -> Report {
    assert_eq!(kind(words[0]), 4);
    let width = number(words[0]) as usize;
    let mut at = 1 + words[1..].iter().take_while(|&&word| kind(word) == 5).count();
    let apart = numbers_of(&words[1..at], 5);
    let mut threads = vec![];
    for _ in 0..width {
        assert_eq!(kind(words[at]), 6);
        let steps = at + 1..at + 1 + number(words[at]) as usize;
        at = steps.end;
        threads.push(numbers_of(&words[steps], 7));
    }
    assert_eq!(words[at..], [0xF000_0000 + at as u32]);
    Report { apart, threads }
}

/// Each episode is held by at least as many threads as it has voices. Each member of the apart set has voices; exactly so many
/// threads hold it, those of member 0 first, and each thread holds one member. So the threads are as many as the members' voices,
/// and no cover is smaller.
fn assert_right(report: &Report, voices: &[usize], links: &HashSet<(u32, u32)>) {
    assert!(report.apart.is_sorted_by(|a, b| a < b));
    assert!(report.apart.iter().all(|&member| voices[member as usize] > 0));
    let by_voices = report.apart.iter().flat_map(|&member| std::iter::repeat_n(member, voices[member as usize]));
    let mut held = vec![0; voices.len()];
    let mut members = vec![];
    for thread in &report.threads {
        let in_thread: Vec<u32> = thread.iter().copied().filter(|v| report.apart.contains(v)).collect();
        assert_eq!(in_thread.len(), 1);
        members.extend(in_thread);
        assert!(thread.windows(2).all(|pair| links.contains(&(pair[0], pair[1]))));
        thread.iter().collect::<HashSet<_>>().into_iter().for_each(|&v| held[v as usize] += 1);
    }
    assert!(by_voices.eq(members));
    assert!(held.iter().zip(voices).all(|(held, wanted)| held >= wanted));
}

/// The words are a loop of the log, from its smallest episode.
fn assert_loop(words: &[u32], log: &[u32]) {
    let links = links_of(log);
    let steps = numbers_of(&words[1..], 7);
    assert_eq!(words[0], 0x8000_0000 + steps.len() as u32);
    assert_eq!(steps.iter().collect::<HashSet<_>>().len(), steps.len());
    assert_eq!(steps.first(), steps.iter().min());
    let next = steps.iter().cycle().skip(1);
    assert!(steps.iter().zip(next).all(|(&a, &b)| links.contains(&(a, b))));
}

fn is_loop(answer: Answer) -> bool {
    answer.is_err_and(|refusal| refusal.number == 13)
}

/// A call of both programs: the answer and the words that it writes, the library's first. The other words of the buffers are
/// looked at here, and so is a loop.
fn both(service: &Service, log: &[u32], out_words: usize, work_words: usize) -> [(Answer, Vec<u32>); 2] {
    service.calls.map(|call| {
        let (mut out, mut work) = (vec![7; out_words], vec![7; work_words]);
        let answer = call(log, &mut out, &mut work);
        let (written, cleared) = match answer {
            Ok(_) if service.written == Written::Nothing => (0, 0),
            Ok(count) => (count, WORK_WORDS),
            Err(refusal) if refusal.number == 13 => (refusal.place + 1, WORK_WORDS),
            Err(_) => (0, 0),
        };
        assert!(out[written..].iter().all(|&word| word == 7));
        assert!(work.iter().enumerate().all(|(i, &word)| word == if i < cleared { 0 } else { 7 }));
        out.truncate(written);
        if is_loop(answer) {
            assert_loop(&out, log);
        }
        (answer, out)
    })
}

/// The words that both programs write where each has an answer, the library's first.
fn both_written(service: &Service, log: &[u32]) -> [Vec<u32>; 2] {
    let needed = (service.needed)(figures(log));
    both(service, log, needed, WORK_WORDS + 1).map(|(answer, words)| {
        assert!(answer.is_ok(), "{answer:?}");
        words
    })
}

/// Stops where a report of either program is wrong or the two differ in the apart set. Gives the width.
pub fn check_report(log: &[u32]) -> usize {
    let [library, plain] = both_written(&REPORT, log).map(|words| {
        let report = take_apart(&words);
        assert_right(&report, &voices_of(log), &links_of(log));
        report
    });
    assert_eq!(library.apart, plain.apart);
    library.threads.len()
}

/// Stops where the trimmed copies of the two programs differ. Gives how many links are kept.
pub fn check_trimmed(log: &[u32]) -> usize {
    let [library, plain] = both_written(&TRIMMED_COPY, log);
    assert_eq!(library, plain);
    figures(&library).to_words
}

/// Stops where the link count of either program is wrong. Gives it.
pub fn check_count(log: &[u32]) -> usize {
    let count = links_of(log).len();
    assert_eq!(both(&LINK_COUNT, log, 0, 0).map(|(answer, _)| answer), [Ok(count); 2]);
    count
}

/// Both programs give the same answer, with the same words where these are fixed; or both show a loop. Gives the number of the
/// refusal, 0 where there is none.
fn assert_alike(service: &Service, log: &[u32], out_words: usize, work_words: usize) -> u32 {
    let [library, plain] = both(service, log, out_words, work_words);
    if is_loop(library.0) && is_loop(plain.0) {
        return 13;
    }
    assert_eq!(library.0, plain.0);
    assert!(service.written == Written::Free || library.1 == plain.1);
    library.0.err().map_or(0, |refusal| refusal.number)
}

/// A short log, with a loop or without. Some of its episodes may not be below n, and some of its voices words may not pass.
fn short_log(numbers: &mut Numbers) -> Vec<u32> {
    let version = [0, 0, 1, 1, 1, 2][numbers.below(6)] << 24;
    let n = if numbers.below(8) == 0 { MOST_WITH_VOICES + numbers.below(2) } else { numbers.below(5) };
    let mut words = vec![0x1000_0000 + version + n as u32];
    for _ in 0..numbers.below(4) * numbers.below(2) {
        words.push(0x9000_0000 + ([0, 0, 1, 2, 2, 3][numbers.below(6)] << 16) + numbers.below(4) as u32);
    }
    let to_words = numbers.below(4);
    for _ in 0..to_words {
        let pause = [0, 1, LONGEST_PAUSE, LONGEST_PAUSE + 1][numbers.below(4)] << 16;
        words.extend([0x2000_0000 + numbers.below(4) as u32, 0x3000_0000 + pause + numbers.below(4) as u32]);
    }
    words.push(0xF000_0000 + to_words as u32);
    words
}

/// Lists of words, most of which are refused: both programs must answer alike. Each refusal is met.
fn check_refused(service: &Service) {
    let mut numbers = Numbers::from_seed(8);
    let mut met = BTreeSet::new();
    for _ in 0..20_000 {
        let mut words = short_log(&mut numbers);
        let needed = (service.needed)(figures(&words));
        if numbers.below(2) == 0 {
            let at = numbers.below(words.len());
            words[at] = (numbers.below(16) as u32) << 28 | (numbers.below(4) as u32) << 16 | numbers.below(5) as u32;
        }
        met.insert(assert_alike(service, &words, needed.saturating_sub(numbers.below(2)), WORK_WORDS));
    }
    let mut lists = vec![vec![], vec![0x1000_0000]];
    lists.extend([0x1200_00C9, 0x1F00_00C9, 0x1F00_0000, 0x2100_0000].map(|head| vec![head, 0xF000_0000]));
    for log in [log_of(201, &[]), log_of(2, &[(0, 1); 4097])] {
        lists.extend([half_long(8, &log), marked(&[(0, 2)], &log), log]);
    }
    let out_words = report_words(EPISODES);
    met.extend(lists.iter().map(|list| assert_alike(service, list, out_words, WORK_WORDS)));
    met.insert(assert_alike(service, &log_of(2, &[(0, 1); 4096]), out_words, WORK_WORDS - 1));
    let most = if service.written == Written::Nothing { 10 } else { 13 };
    assert!(met.into_iter().eq((0..=most).chain(18..=21)));
}

/// Each service on a log that passes and has no loop.
fn check_each(log: &[u32]) {
    check_report(log);
    check_trimmed(log);
    check_count(log);
}

/// The services on small random logs of both versions, with voices words and without, and on lists of words most of which are
/// refused.
pub fn check_small() {
    let mut numbers = Numbers::from_seed(8);
    for seed in 0..2000 {
        let n = 2 + numbers.below(60);
        let log = log_of(n, &random(seed, n, n, numbers.below(200)));
        let marks = random_marks(seed, n);
        for log in [half_long(seed, &log), log] {
            check_each(&marked(&marks, &log));
            check_each(&log);
        }
    }
    [REPORT, TRIMMED_COPY, LINK_COUNT].iter().for_each(check_refused);
}
