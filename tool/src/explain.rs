//! A log's answer in plain words: why the number of a report is what it is, or what is wrong with a refused log, and where.

use std::collections::BTreeSet;

use zohapy::{
    Failure, LOG_BYTES, LONGEST_PAUSE, MOST_VOICES, MOST_WITH_VOICES, Refusal, Report, counts, episode, head_episodes,
    head_version, head_word, kind, number, pause, voices, voices_word, words_from_bytes,
};

use crate::answer::Answer;
use crate::log::Log;
use crate::wording::{counted, in_words, listed};

/// How many words are shown on each side of the one that a refusal names.
const AROUND: usize = 3;

/// The most episodes and the most to words of a log.
const MOST_EPISODES: u32 = 200;
const MOST_TO_WORDS: usize = 4096;

/// The answer to the log with these bytes, explained.
pub fn explained(log: &[u8], answer: &Answer) -> String {
    match answer.report() {
        Ok(report) => of_report(&accepted(log), &report),
        Err(Failure::Loop(episodes)) => format!("{}\n{}", answer.text(), of_loop(&whole_words(log), &accepted(log), &episodes)),
        Err(Failure::Refused(refusal)) => format!("{}\n{}", answer.text(), of_refusal(log, refusal)),
    }
}

/// The words of bytes, without a word that is cut off.
fn whole_words(log: &[u8]) -> Vec<u32> {
    log.as_chunks::<4>().0.iter().map(|word| u32::from_le_bytes(*word)).collect()
}

/// A log that has passed the reading.
fn accepted(log: &[u8]) -> Log {
    words_from_bytes(log).and_then(|words| Log::from_words(&words)).expect("the log has passed the reading")
}

/// Why the number of a report is what it is.
fn of_report(log: &Log, report: &Report) -> String {
    let mut text = format!("width {}\n\n", report.width);
    if report.width == 0 {
        text += match report.episodes {
            0 => "There is no episode, so there need be no sleeper.\n",
            _ => "Every episode is a door, made by no sleeper, so there need be none.\n",
        };
        return text + &line_on_uncounted(log);
    }
    text += &format!("{}\n{}\n", why_no_fewer(log, report), why_enough(log, report));
    // The members in the threads' order, each as often as it has voices.
    let members = report.apart.iter().flat_map(|member| (0..log.voices(*member)).map(|_| *member));
    for (i, (steps, member)) in report.threads.iter().zip(members).enumerate() {
        text += &format!("  {member} is in thread {i}: {}\n", listed(steps));
    }
    text + &line_on_uncounted(log)
}

/// Why no fewer sleepers are enough, by the apart set.
fn why_no_fewer(log: &Log, report: &Report) -> String {
    let least = format!("No fewer than {}", counted(report.width, "sleeper"));
    let marked = report.apart.iter().any(|member| log.voices(*member) != 1);
    let members = in_words(&report.apart);
    let voices = counted(report.width, "voice");
    match (report.apart.len(), marked) {
        (1, false) => format!("{least}: somebody made episode {members}."),
        (1, true) => format!("{least}: episode {members} has {voices}."),
        (_, false) => format!("{least}: no sleeper could have made two of the episodes {members}, {}.", because(log)),
        (_, true) => {
            let duets: Vec<u32> = report.apart.iter().copied().filter(|member| log.voices(*member) == 2).collect();
            let are = if duets.len() == 1 { "is a duet" } else { "are duets" };
            format!(
                "{least}: no sleeper could have made two of the episodes {members}, {}, and they have {voices}: {} {are}.",
                because(log),
                in_words(&duets)
            )
        }
    }
}

/// Why no sleeper could have made two episodes of an apart set.
fn because(log: &Log) -> &'static str {
    if uncounted(log) == 0 {
        "because no links lead from one of them to another"
    } else {
        "because no links that count lead from one of them to another"
    }
}

/// Why so many sleepers are enough, by the threads.
fn why_enough(log: &Log, report: &Report) -> String {
    let marked = log.marks.iter().any(|mark| mark.voices != 1);
    let hold =
        if marked { "each episode is in as many threads as it has voices, or more" } else { "each episode is in a thread" };
    match report.width {
        1 if marked => {
            "One is enough: each episode but doors is in the thread, all of which one sleeper could have made, in order."
                .to_string()
        }
        1 => "One is enough: each episode is in the thread, all of which one sleeper could have made, in order.".to_string(),
        k => format!("And {k} are enough: {hold}, and one sleeper could have made all episodes of a thread, in order."),
    }
}

/// How many different links of a log do not count.
fn uncounted(log: &Log) -> usize {
    log.least_pauses().values().filter(|pause| !counts(log.version, **pause)).count()
}

/// A line on the links that do not count, where there are any.
fn line_on_uncounted(log: &Log) -> String {
    let which = match uncounted(log) {
        0 => return String::new(),
        1 => "1 does not count, because its least pause is".to_string(),
        count => format!("{count} do not count, because their least pauses are"),
    };
    format!("Of {} {which} over {LONGEST_PAUSE} minutes.\n", counted(log.least_pauses().len(), "different link"))
}

/// The links of a loop, each with the to words that give it and their from words.
fn of_loop(words: &[u32], log: &Log, episodes: &[u32]) -> String {
    let first = episodes[0];
    let mut text = match episodes {
        [_] => format!(
            "Episode {first} is linked to itself, so it would come before itself. That link is wrong. These words give it:\n"
        ),
        _ => format!(
            "Along these links episode {first} would come before itself, so at least one of them is wrong. These words give them:\n"
        ),
    };
    for (from, to) in episodes.iter().zip(episodes[1..].iter().chain([&first])) {
        text += &format!("\n{from}-{to}\n");
        let places: BTreeSet<usize> = to_words(words, *from, *to).into_iter().flat_map(<[usize; 2]>::from).collect();
        text.extend(places.into_iter().map(|place| line(words, place, false) + "\n"));
    }
    let which = if episodes.len() == 1 { "that link" } else { "at least one of these links" };
    let long =
        if log.version == 0 { String::new() } else { format!(", or pauses of over {LONGEST_PAUSE} minutes in all of them") };
    text + &format!(
        "\nNeeded: {which} put right or taken out, in all to words that give it{long}. There may be other loops besides.\n"
    )
}

/// The places of the to words that give a link, each behind that of its from word.
fn to_words(words: &[u32], from: u32, to: u32) -> Vec<(usize, usize)> {
    let (mut places, mut group) = (Vec::new(), 0);
    // The log has passed, so that each to word stands behind a from word.
    for (place, word) in words.iter().enumerate() {
        match kind(*word) {
            2 => group = place,
            3 if number(words[group]) == from && episode(*word) == to => places.push((group, place)),
            _ => {}
        }
    }
    places
}

/// What is wrong with a log that is refused, the words around the place, and what is needed there.
fn of_refusal(log: &[u8], refusal: Refusal) -> String {
    let words = whole_words(log);
    let place = refusal.place;
    let Wrong { what, needed } = match refusal.number {
        1 => too_short(&words),
        2 | 3 | 18 => wrong_head(&words, refusal.number),
        7 | 19 | 20 | 21 if kind(words[place]) == 9 => wrong_voices(&words, refusal),
        9 | 10 => wrong_end(&words, refusal.number),
        14 => Wrong {
            what: format!("The file has more than {LOG_BYTES} bytes, the most that a log can have."),
            needed: format!("at most {LOG_BYTES} bytes"),
        },
        15 => odd_bytes(log.len()),
        _ => wrong_word(&words, refusal),
    };
    let shown = match refusal.number {
        1 | 14 => words_around(&words, 0, None),
        15 => words_around(&words, words.len(), None) + &rest(log, words.len()),
        _ => words_around(&words, place, Some(place)),
    };
    let shown = if shown.is_empty() { shown } else { shown + "\n" };
    format!("{what}\n\n{shown}Needed: {needed}.\n{}", hint(log, &words))
}

/// What is wrong with a log, as a sentence, and what is needed, without the period.
struct Wrong {
    what: String,
    needed: String,
}

fn too_short(words: &[u32]) -> Wrong {
    let has = if words.is_empty() { "no word".to_string() } else { "one word".to_string() };
    Wrong {
        what: format!("The log has {has}; it must have a head and an end at least."),
        needed: "two words or more, the first a head, the last an end; 10000000 F0000000 is the log without episodes".to_string(),
    }
}

fn wrong_head(words: &[u32], refused: u32) -> Wrong {
    let head = words[0];
    let (version, episodes) = (head_version(head), head_episodes(head));
    match refused {
        2 => Wrong {
            what: "The first word is no head.".to_string(),
            needed:
                "a word of kind 1, with the version and the count of episodes; 10000005 is the head of version 0 with 5 episodes"
                    .to_string(),
        },
        18 => Wrong {
            what: format!("The head gives version {version}, which is not known."),
            needed: {
                let [of_0, of_1] = [0, 1].map(|version| head_word(version, episodes).expect("a head has room for both"));
                format!("version 0, which would be {of_0:08X}, or version 1, {of_1:08X}")
            },
        },
        _ => Wrong {
            what: format!("The head gives {episodes} episodes; a log has at most {MOST_EPISODES}."),
            needed: format!("at most {MOST_EPISODES} episodes"),
        },
    }
}

fn wrong_voices(words: &[u32], Refusal { number, place }: Refusal) -> Wrong {
    let (word, episodes) = (words[place], head_episodes(words[0]));
    let (marked, given) = (episode(word), voices(word));
    match number {
        7 => Wrong {
            what: format!("The voices word gives episode {marked}, which the log does not have: {}.", has_episodes(episodes)),
            needed: needed_episode(episodes),
        },
        19 => Wrong {
            what: format!("The voices word gives {given} voices to episode {marked}; an episode has at most {MOST_VOICES}."),
            needed: {
                let [none, one, two] =
                    [0, 1, 2].map(|voices| voices_word(marked, voices).expect("a voices word has room for both"));
                format!("{none:08X} for a door, {one:08X} for one voice, or {two:08X} for a duet")
            },
        },
        20 => Wrong {
            what: format!(
                "The log has a voices word and {episodes} episodes; with voices words there are at most {MOST_WITH_VOICES}."
            ),
            needed: format!("at most {MOST_WITH_VOICES} episodes, or no voices words"),
        },
        _ => {
            let before = words[1..place].iter().position(|word| episode(*word) == marked).expect("it was marked before") + 1;
            Wrong {
                what: format!(
                    "The voices word gives voices to episode {marked} again: word {before} gave it {}.",
                    voices(words[before])
                ),
                needed: format!("one voices word for each episode: this one or word {before}"),
            }
        }
    }
}

/// The episodes that a log has.
fn has_episodes(episodes: u32) -> String {
    match episodes {
        0 => "it has no episodes".to_string(),
        1 => "it has one episode, 0".to_string(),
        n => format!("it has {n} episodes, 0 to {}", n - 1),
    }
}

fn needed_episode(episodes: u32) -> String {
    match episodes {
        0 => "no such word, or a head with more episodes".to_string(),
        1 => "episode 0, or a head with more episodes".to_string(),
        n => format!("an episode below {n}, or a head with more episodes"),
    }
}

/// A word between head and end that is refused by 4 to 8, voices words that are by 7 left out.
fn wrong_word(words: &[u32], Refusal { number: refused, place }: Refusal) -> Wrong {
    let (word, episodes) = (words[place], head_episodes(words[0]));
    match refused {
        4 => wrong_kind(words, place),
        5 => Wrong {
            what: "The to word stands before any from word, so that its link has no earlier episode.".to_string(),
            needed: "a from word in front of it".to_string(),
        },
        6 => Wrong {
            what: if place + 2 == words.len() {
                "Behind the from word stands the last word, which has to be the end, so that it has no to word.".to_string()
            } else {
                "Behind the from word stands no to word.".to_string()
            },
            needed: "a to word right behind it, before the last word; or no from word here".to_string(),
        },
        7 => {
            let (name, given) = if kind(word) == 2 { ("from", number(word)) } else { ("to", episode(word)) };
            Wrong {
                what: format!("The {name} word gives episode {given}, which the log does not have: {}.", has_episodes(episodes)),
                needed: needed_episode(episodes),
            }
        }
        _ => Wrong {
            what: "The 4,097th to word stands here; a log has at most 4,096.".to_string(),
            needed: "at most 4,096 to words, each repeat counted".to_string(),
        },
    }
}

/// A word between head and end that is neither a from word nor a to word, nor a voices word where these stand.
fn wrong_kind(words: &[u32], place: usize) -> Wrong {
    let behind = words.len() - 1 - place;
    let group = words[1..place].iter().position(|word| kind(*word) == 2).map(|before| before + 1);
    let what = match (kind(words[place]), group) {
        (1, _) => "A second head stands here. There may be two logs in the file.".to_string(),
        (9, _) => "A voices word stands behind a group; voices words stand right behind the head.".to_string(),
        (15, _) => format!("An end stands here, but the log goes on: {} behind it.", stand(behind)),
        (_, None) => "The word is neither a voices word nor a from word nor a to word.".to_string(),
        (_, Some(_)) => "The word is neither a from word nor a to word.".to_string(),
    };
    let needed = match (kind(words[place]), group) {
        (9, Some(first)) => format!("the voices word in front of word {first} instead"),
        (15, _) => "a from word or a to word here; the last word alone is an end".to_string(),
        (_, None) => "a voices word or a from word".to_string(),
        (_, Some(_)) => "a from word or a to word".to_string(),
    };
    Wrong { what, needed }
}

/// That so many words stand somewhere.
fn stand(words: usize) -> String {
    if words == 1 { "1 word stands".to_string() } else { format!("{words} words stand") }
}

fn wrong_end(words: &[u32], refused: u32) -> Wrong {
    let (last, before) = words.split_last().expect("the log has two words");
    let count = before.iter().filter(|word| kind(**word) == 3).count();
    let end = |count: usize| format!("{:08X}", 0xF000_0000 | count as u32);
    if refused == 10 {
        let given = number(*last) as usize;
        let (only, unless) = if given > count { ("only ", "to words are missing") } else { ("", "there are to words too many") };
        return Wrong {
            what: format!("The end gives {}, but there are {only}{count}.", counted(given, "to word")),
            needed: format!("{}, unless {unless}", end(count)),
        };
    }
    let may_stay = kind(*last) == 3 && count < MOST_TO_WORDS;
    let behind = if may_stay { format!(", or {} behind it", end(count + 1)) } else { String::new() };
    Wrong {
        what: "The last word is no end. The log may have been cut off.".to_string(),
        needed: format!("an end with the count of to words: {} in its place{behind}", end(count)),
    }
}

fn odd_bytes(bytes: usize) -> Wrong {
    let (whole, over) = (bytes / 4, bytes % 4);
    Wrong {
        what: format!(
            "The file has {}, which are {} and {} more. The log may have been cut off.",
            counted(bytes, "byte"),
            counted(whole, "word"),
            counted(over, "byte")
        ),
        needed: format!("four bytes for each word: {} more or {over} fewer", 4 - over),
    }
}

/// The lines of the words around a place, with a sign at the one that is refused.
fn words_around(words: &[u32], place: usize, refused: Option<usize>) -> String {
    let shown = place.saturating_sub(AROUND)..words.len().min(place + AROUND + 1);
    shown.map(|place| line(words, place, refused == Some(place)) + "\n").collect()
}

/// The bytes behind the last whole word.
fn rest(log: &[u8], whole: usize) -> String {
    let bytes: Vec<String> = log[4 * whole..].iter().map(|byte| format!("{byte:02X}")).collect();
    format!("> {whole:>5}  {:<8}  {}, the first of a word\n", bytes.join(" "), counted(bytes.len(), "byte"))
}

/// A word with its place, in hexadecimal and taken apart.
fn line(words: &[u32], place: usize, refused: bool) -> String {
    let sign = if refused { ">" } else { " " };
    format!("{sign} {place:>5}  {:08X}  {}", words[place], taken_apart(words[place]))
}

/// The kind and the number of a word, and the figures that the number has in a log.
fn taken_apart(word: u32) -> String {
    let figures = match kind(word) {
        1 => format!("version {}, episodes {}", head_version(word), head_episodes(word)),
        2 => format!("episode {}", number(word)),
        3 => format!("episode {}, pause {}", episode(word), pause(word)),
        9 => format!("episode {}, voices {}", episode(word), voices(word)),
        15 => format!("to words {}", number(word)),
        4..=8 => return format!("kind {}, number {}: a word of a report, not of a log", kind(word), number(word)),
        _ => return format!("kind {:X}, number {}: no word of a log", kind(word), number(word)),
    };
    let name = match kind(word) {
        1 => "head",
        2 => "from",
        3 => "to",
        9 => "voices",
        _ => "end",
    };
    format!("kind {:X} ({name}), number {}: {figures}", kind(word), number(word))
}

/// What the bytes may be instead of a log, where they look like it.
fn hint(log: &[u8], words: &[u32]) -> String {
    if [&b"episodes"[..], b"version", b"#"].iter().any(|start| log.starts_with(start)) {
        return "It begins as the text form of a log does. `zohapy-tool bytes` makes the log of it.\n".to_string();
    }
    let turned = words.first().map_or(0, |word| word.swap_bytes());
    if words.first().is_some_and(|word| kind(*word) != 1) && kind(turned) == 1 && head_episodes(turned) <= MOST_EPISODES {
        return format!(
            "With its bytes turned round the first word would be a head, {turned:08X}. A log has the lowest byte first.\n"
        );
    }
    String::new()
}

#[cfg(test)]
mod tests {
    use super::*;
    use crate::answer::Buffers;
    use crate::random::Random;
    use std::collections::BTreeMap;
    use zohapy::bytes_from_words;

    /// Logs with what is said of each: a line `log` with its words and, behind +, further bytes, and the explanation.
    const EXPLAINED: &str = include_str!("../tests/explained.txt");

    fn explanation(log: &[u8]) -> String {
        explained(log, &Buffers::new().answer(log))
    }

    /// The bytes that a line `log` gives.
    fn given(line: &str) -> Vec<u8> {
        let (words, bytes) = line.split_once('+').unwrap_or((line, ""));
        let word = |digits| u32::from_str_radix(digits, 16).expect("a word");
        let mut log = bytes_from_words(&words.split_ascii_whitespace().map(word).collect::<Vec<_>>());
        log.extend(bytes.split_ascii_whitespace().map(|digits| u8::from_str_radix(digits, 16).expect("a byte")));
        log
    }

    #[test]
    fn logs_of_all_kinds_are_explained() {
        let mut refusals = BTreeSet::new();
        for case in EXPLAINED.split("# ").skip(1) {
            let (name, rest) = case.split_once("\nlog ").expect("a line `log`");
            let (log, due) = rest.split_once('\n').expect("the explanation");
            assert_eq!(explanation(&given(log)).trim_end(), due.trim_end(), "{name}");
            refusals.extend(due.strip_prefix("refused ").and_then(|line| line.split(' ').next()));
        }
        // 8 and 14 need long logs.
        let all = ["1", "2", "3", "4", "5", "6", "7", "9", "10", "13", "15", "18", "19", "20", "21"];
        assert_eq!(refusals, BTreeSet::from(all));
    }

    #[test]
    fn logs_that_are_too_long() {
        let mut words = vec![0x1000_0002, 0x2000_0000];
        words.extend(vec![0x3000_0001; 4097]);
        words.push(0xF000_1001);
        let text = explanation(&bytes_from_words(&words));
        assert!(text.starts_with("refused 8 at 4098\n\nThe 4,097th to word stands here; a log has at most 4,096.\n\n"));
        assert!(text.contains("\n>  4098  30000001  kind 3 (to), number 1: episode 1, pause 0\n"));
        assert!(text.ends_with("\nNeeded: at most 4,096 to words, each repeat counted.\n"));
        // Where the last word is a to word too many, no end behind it would do.
        words.pop();
        let text = explanation(&bytes_from_words(&words));
        assert!(text.starts_with("refused 9 at 4098\n"));
        assert!(text.ends_with("\nNeeded: an end with the count of to words: F0001000 in its place.\n"));
        let text = explanation(&[0; LOG_BYTES + 1]);
        assert!(text.starts_with("refused 14 at 33256\n\nThe file has more than 33256 bytes, the most that a log can have.\n\n"));
        assert_eq!(text.matches("  00000000  kind 0, number 0: no word of a log\n").count(), 4);
    }

    #[test]
    fn a_text_form_is_known() {
        for text in ["episodes 5\n0-1\n", "version 1\nepisodes 5\n", "# a night\nepisodes 5"] {
            let explanation = explanation(text.as_bytes());
            assert!(
                explanation.ends_with("text form of a log does. `zohapy-tool bytes` makes the log of it.\n"),
                "{explanation}"
            );
        }
    }

    /// The places of the lines of words, each with its sign and its word.
    fn places(text: &str) -> BTreeMap<usize, (bool, u32)> {
        let lines = text.lines().filter(|line| line.contains("  kind "));
        let place = |line: &str| {
            let mut parts = line[1..].split_ascii_whitespace();
            let place = parts.next().and_then(|place| place.parse().ok()).expect("a place");
            let word = parts.next().and_then(|word| u32::from_str_radix(word, 16).ok()).expect("a word");
            (place, (line.starts_with('>'), word))
        };
        lines.map(place).collect()
    }

    #[test]
    fn random_logs_are_explained_by_their_own_words() {
        let mut random = Random::new();
        for _ in 0..1000 {
            let log = random.log();
            let mut buffers = Buffers::new();
            let answer = buffers.answer(&log);
            let (text, words) = (explained(&log, &answer), whole_words(&log));
            let shown = places(&text);
            assert!(shown.iter().all(|(place, (_, word))| words[*place] == *word), "{text}");
            match answer.report() {
                Ok(report) => {
                    let threads = text.lines().filter_map(|line| line.strip_prefix("  ")?.split_once(" is in thread "));
                    for (i, ((member, thread), steps)) in threads.zip(&report.threads).enumerate() {
                        let member = member.parse().expect("an episode");
                        assert!(report.apart.contains(&member) && steps.contains(&member), "{text}");
                        assert_eq!(thread, format!("{i}: {}", listed(steps)));
                    }
                    assert_eq!(text.matches(" is in thread ").count(), report.width);
                }
                Err(failure) => {
                    assert!(text.starts_with(&failure.to_string()));
                    let refusal = failure.refusal();
                    let signed: Vec<usize> = shown.iter().filter(|shown| shown.1.0).map(|shown| *shown.0).collect();
                    let no_word = matches!(refusal.number, 1 | 13 | 14 | 15);
                    assert_eq!(signed, if no_word { vec![] } else { vec![refusal.place] }, "{text}");
                }
            }
        }
    }

    #[test]
    fn all_to_words_of_a_loop_are_shown() {
        let mut random = Random::new();
        let mut loops = 0;
        for _ in 0..1000 {
            let log = random.log();
            let mut buffers = Buffers::new();
            let answer = buffers.answer(&log);
            let Err(Failure::Loop(episodes)) = answer.report() else { continue };
            loops += 1;
            let (text, links) = (explained(&log, &answer), accepted(&log).links);
            let pairs = episodes.iter().zip(episodes.iter().cycle().skip(1));
            let (mut shown, mut due) = (Vec::new(), Vec::new());
            for (from, to) in pairs {
                let part = text.split_once(&format!("\n\n{from}-{to}\n")).expect("the link is shown").1;
                let part = part.split("\n\n").next().unwrap_or_default();
                shown.extend(
                    part.lines()
                        .filter(|line| line.contains("kind 3 (to)"))
                        .map(|line| (*from, *to, line.contains(&format!(": episode {to}, pause ")))),
                );
                due.extend(links.iter().filter(|link| (link.from, link.to) == (*from, *to)).map(|_| (*from, *to, true)));
            }
            assert_eq!(shown, due, "{text}");
        }
        assert!(loops >= 50, "{loops}");
    }
}
