//! The faults of the text service: what they make of bytes, answers, texts and buffers.

use crate::faults::{Fault, change_at};
use crate::lent::{Lent, Unit};
use crate::model;
use crate::reference::{Graph, MOST_BYTES, Refusal, TEXT, WORK, bytes, in_order, refusal_text};
use crate::services::{Door, Services, TextAnswer};
use crate::words::{APART, TO, VOICES, episode, episodes, kind, number, voices};

/// The buffers of a text call.
pub struct Buffers<'a> {
    pub log: &'a mut Lent<u8>,
    pub text: &'a mut Lent<u8>,
    pub out: &'a mut Lent,
    pub work: &'a mut Lent,
}

/// The bytes as the fault reads them, where it reads them otherwise.
fn reread(fault: Fault, log: &[u8]) -> Option<Vec<u8>> {
    match fault {
        Fault::TextHighFirst if log.len().is_multiple_of(4) => {
            Some(log.chunks(4).flat_map(|four| four.iter().rev().copied()).collect())
        }
        Fault::TextFifteenUnasked if log.len() <= MOST_BYTES => Some(log[..log.len() / 4 * 4].to_vec()),
        _ => None,
    }
}

/// A call with a fault in how bytes are read, or in when a text buffer that is too short is found; none where the fault is another.
pub fn called(fault: Fault, door: Door, services: &mut impl Services, lent: &mut Buffers) -> Option<TextAnswer> {
    if let Some(other) = reread(fault, lent.log.lent()) {
        return Some(services.text(door, &mut Lent::of(&other), lent.text, lent.out, lent.work));
    }
    let late =
        [Fault::TextElevenLate, Fault::TextElevenWords, Fault::TextElevenLast, Fault::TextElevenOwn, Fault::TextElevenLess];
    let length = lent.text.len();
    if length >= TEXT || !late.contains(&fault) {
        return None;
    }
    let mut long = Lent::of(&[0; TEXT]);
    let mut answer = services.text(door, lent.log, &mut long, lent.out, lent.work);
    let kept = match fault {
        Fault::TextElevenLate => matches!(answer.number, 14 | 15),
        Fault::TextElevenWords => !matches!(answer.number, 0 | 11..=13),
        Fault::TextElevenLast => !matches!(answer.number, 0 | 13),
        Fault::TextElevenOwn => answer.bytes <= length,
        _ => length + 1 == TEXT,
    };
    if kept {
        answer.bytes = answer.bytes.min(length);
        lent.text.lent_mut()[..answer.bytes].copy_from_slice(&long.lent()[..answer.bytes]);
        return Some(answer);
    }
    restore(lent.out);
    restore(lent.work);
    Some(TextAnswer { number: 11, value: TEXT, bytes: 0 })
}

/// Puts back what stood in a buffer before the call.
fn restore<T: Unit>(buffer: &mut Lent<T>) {
    let before = buffer.before().to_vec();
    buffer.lent_mut().copy_from_slice(&before);
}

/// Writes another text, as if the library had written it.
fn rewrite(text: &mut Lent<u8>, answer: &mut TextAnswer, other: &str) {
    if other.len() <= text.len() {
        restore(text);
        text.lent_mut()[..other.len()].copy_from_slice(other.as_bytes());
        answer.bytes = other.len();
    }
}

/// The answer and the text of a refusal.
pub fn refuse(number: u32, value: usize, text: &mut Lent<u8>) -> TextAnswer {
    let mut answer = TextAnswer { number, value, bytes: 0 };
    rewrite(text, &mut answer, &refusal_text(Refusal { number, place: value }));
    answer
}

/// The same with nothing written to output and work buffer.
fn refuse_all(number: u32, value: usize, lent: &mut Buffers) -> TextAnswer {
    restore(lent.out);
    restore(lent.work);
    refuse(number, value, lent.text)
}

/// An answer with a fault in it, or in the buffers.
pub fn altered(fault: Fault, door: Door, answer: TextAnswer, lent: &mut Buffers, kept: &mut String) -> TextAnswer {
    let count = lent.log.len();
    let mut answer = match (fault, answer.number) {
        (Fault::TextFourteenCount, 14) => refuse(14, count, lent.text),
        (Fault::TextFourteenLate, 14) if count < MOST_BYTES + 4 => refuse(15, count, lent.text),
        (Fault::TextFourteenEarly, _) if count == MOST_BYTES && answer.bytes > 0 => refuse_all(14, MOST_BYTES, lent),
        (Fault::TextFifteenFirst, 14) if !count.is_multiple_of(4) => refuse(15, count, lent.text),
        (Fault::TextFifteenPlace, 15) => refuse(15, count / 4, lent.text),
        (Fault::TextFifteenNone, 1) if count == 0 => refuse(15, 0, lent.text),
        (Fault::TextElevenExact, _) if lent.text.len() == TEXT => {
            refuse_all(11, TEXT, lent);
            restore(lent.text);
            TextAnswer { number: 11, value: TEXT, bytes: 0 }
        }
        (Fault::TextLoopNumber, 13) => TextAnswer { number: 0, ..answer },
        (Fault::TextLoopValue, 13) => TextAnswer { value: answer.value + 1, ..answer },
        (Fault::TextValueBytes, 0) => TextAnswer { value: answer.bytes, ..answer },
        (Fault::TextNone, 11 | 12) => {
            restore(lent.text);
            TextAnswer { bytes: 0, ..answer }
        }
        _ => answer,
    };
    match (fault, answer.number) {
        (Fault::TextElevenPlace, 11) if answer.bytes == 0 => answer.value = lent.text.len(),
        (Fault::TextElevenTwelve, 11) if answer.bytes == 0 => answer.number = 12,
        (Fault::TextElevenWrites, 11) if answer.bytes == 0 => change_at(lent.text.lent_mut(), 0),
        (Fault::TextElevenTold, 11) if answer.bytes == 0 => answer = refuse(11, TEXT, lent.text),
        (Fault::TextElevenOut, 11) if answer.bytes == 0 => change_at(lent.out.lent_mut(), 0),
        (Fault::TextElevenWork, 11) if answer.bytes == 0 => lent.work.lent_mut().fill(0),
        (Fault::TextRefusedOut, 14 | 15) => change_at(lent.out.lent_mut(), 0),
        (Fault::TextRefusedWork, 14 | 15) => lent.work.lent_mut().fill(0),
        (Fault::TextOutLeft, 0 | 13) => restore(lent.out),
        (Fault::TextWorkLeft, 0 | 13) => lent.work.lent_mut()[WORK - 1] = 1,
        _ => {}
    }
    let end = lent.text.with_outside().len();
    match fault {
        Fault::TextLogChanged => change_at(lent.log.lent_mut(), count.saturating_sub(1)),
        Fault::TextOutside => change_at(lent.text.with_outside_mut(), end - 16),
        Fault::TextOutsideLog => change_at(lent.log.with_outside_mut(), 15),
        _ => {}
    }
    if answer.bytes > 0 {
        let told = String::from_utf8_lossy(&lent.text.lent()[..answer.bytes]).into_owned();
        if let Some(other) = other_text(fault, door, &told, answer.number, lent, kept) {
            rewrite(lent.text, &mut answer, &other);
        }
        match fault {
            Fault::TextBehind => change_at(lent.text.lent_mut(), answer.bytes),
            Fault::TextCleared => lent.text.lent_mut()[answer.bytes..].fill(0),
            Fault::TextBytesMore => answer.bytes += 1,
            Fault::TextBytesFewer => answer.bytes -= 1,
            Fault::TextBytesNone if !matches!(answer.number, 0 | 13) => answer.bytes = 0,
            _ => {}
        }
    }
    answer
}

/// The text with each of its figures written otherwise.
fn figures(text: &str, other: impl Fn(&str) -> String) -> String {
    let is_figure = |item: &str| item.bytes().all(|byte| byte.is_ascii_digit());
    let line = |line: &str| {
        let items = line.split(' ').map(|item| if is_figure(item) { other(item) } else { item.into() });
        items.collect::<Vec<_>>().join(" ") + "\n"
    };
    text.lines().map(line).collect()
}

/// The text with other lines for those that have this name; the figures of each are given, with the spaces before them.
fn lines(text: &str, name: &str, other: impl Fn(&str) -> String) -> String {
    let line = |line: &str| line.strip_prefix(name).map_or(format!("{line}\n"), &other);
    text.lines().map(line).collect()
}

/// The figures of a line turned round.
fn turned(figures: &str) -> String {
    figures.rsplit(' ').filter(|figure| !figure.is_empty()).map(|figure| format!(" {figure}")).collect()
}

/// How many figures a line has.
fn count(figures: &str) -> usize {
    figures.matches(' ').count()
}

/// The text with a fault in it, or none where the fault is another.
fn other_text(fault: Fault, door: Door, told: &str, answer: u32, lent: &Buffers, kept: &mut String) -> Option<String> {
    let input = lent.log.before();
    let words = bytes(input).unwrap_or_default();
    let passed = in_order(&words).is_ok();
    let all = |wanted: u32| words.iter().filter(|&&given| kind(given) == wanted).count();
    let empty = |line: &str| told.replace("apart\n", line);
    let last_line = || told.trim_end().rfind('\n').map_or("", |end| &told[..end + 1]).to_string();
    let links = |count: usize| lines(told, "links", |_| format!("links {count}\n"));
    let loop_line = |other: &dyn Fn(&str) -> String| lines(told, "loop", |steps| format!("loop{}\n", other(steps)));
    let threads = |other: &dyn Fn(&str) -> String| lines(told, "thread", |steps| format!("thread{}\n", other(steps)));
    Some(match fault {
        Fault::TextZero => told.replacen(' ', " 0", 1),
        Fault::TextRust if door == Door::Rust => told.replacen(' ', " 0", 1),
        Fault::TextC if door == Door::C => told.replacen(' ', " 0", 1),
        Fault::TextZeros => figures(told, |figure| format!("{figure:0>3}")),
        Fault::TextSpaces => told.replacen(' ', "  ", 1),
        Fault::TextLineSpace => told.replacen('\n', " \n", 1),
        Fault::TextApartSpace => empty("apart \n"),
        Fault::TextMembersSpace => {
            lines(told, "apart", |members| format!("apart{members}{}\n", if members.is_empty() { "" } else { " " }))
        }
        Fault::TextApartZero => empty("apart 0\n"),
        Fault::TextApartGone => empty(""),
        Fault::TextNewline => told.trim_end().into(),
        Fault::TextEmptyLine => format!("{told}\n"),
        Fault::TextReturns => told.replace('\n', "\r\n"),
        Fault::TextZeroByte => format!("{told}\0"),
        Fault::TextLastThread if answer == 0 && told.contains("thread") => last_line(),
        Fault::TextThreadLength => threads(&|steps| {
            let behind = steps[1..].find(' ').map_or("", |at| &steps[at + 1..]);
            format!(" {}{behind}", count(steps))
        }),
        Fault::TextThreadCount => threads(&|steps| format!(" {}{steps}", count(steps))),
        Fault::TextLastStep => threads(&|steps| steps[..steps.rfind(' ').unwrap_or(0)].into()),
        Fault::TextThreadsTurned => {
            let all = told.split_inclusive('\n');
            let (threads, others): (Vec<&str>, Vec<&str>) = all.partition(|line| line.starts_with("thread"));
            others.into_iter().chain(threads.into_iter().rev()).collect()
        }
        Fault::TextStepsTurned => threads(&turned),
        Fault::TextOneMore => threads(&|steps| {
            let more = |figure: &str| figure.parse::<usize>().map_or(String::new(), |figure| format!(" {}", figure + 1));
            steps.split(' ').map(more).collect()
        }),
        Fault::TextHundreds => figures(told, |figure| figure[figure.len().saturating_sub(2)..].into()),
        Fault::TextLowByte => figures(told, |figure| (figure.parse::<usize>().unwrap_or(0) % 256).to_string()),
        Fault::TextHexadecimal => figures(told, |figure| format!("{:X}", figure.parse::<usize>().unwrap_or(0))),
        Fault::TextCommas => figures(told, |figure| match figure.len() {
            length @ 4.. => format!("{},{}", &figure[..length - 3], &figure[length - 3..]),
            _ => figure.into(),
        }),
        Fault::TextNoZero => figures(told, |figure| if figure == "0" { String::new() } else { figure.into() }),
        Fault::TextHead if passed => lines(told, "episodes", |_| format!("episodes {}\n", number(words[0]))),
        Fault::TextEpisodes if passed => links(episodes(words[0])),
        Fault::TextToWords if passed => links(all(TO)),
        Fault::TextHeard if passed => links(Graph::of_all(&words).links.len()),
        Fault::TextVoicesCounted if passed => links(Graph::of(&words).links.len() + all(VOICES)),
        Fault::TextMembers if answer == 0 => {
            let members = lent.out.lent().iter().skip(1).take_while(|&&word| kind(word) == APART).count();
            lines(told, "width", |_| format!("width {members}\n"))
        }
        Fault::TextOrder => told.replace("episodes", "x").replace("links", "episodes").replace('x', "links"),
        Fault::TextWidthGone => lines(told, "width", |_| String::new()),
        Fault::TextTwice if passed => {
            let duets: Vec<usize> =
                words.iter().filter(|&&given| kind(given) == VOICES && voices(given) == 2).map(|&given| episode(given)).collect();
            let twice = |member: &str| {
                let duet = member.parse().is_ok_and(|member| duets.contains(&member));
                if duet { format!(" {member} {member}") } else { format!(" {member}") }
            };
            lines(told, "apart", |members| format!("apart{}\n", members.split(' ').skip(1).map(twice).collect::<String>()))
        }
        Fault::TextCover => model::text_of(input),
        Fault::TextLoopGone => lines(told, "loop", |_| String::new()),
        Fault::TextLoopClosed => loop_line(&|steps| format!("{steps} {}", steps.split(' ').nth(1).unwrap_or(""))),
        Fault::TextLoopLength => loop_line(&|steps| format!(" {}{steps}", count(steps))),
        Fault::TextLoopTurned => loop_line(&turned),
        Fault::TextPlace => {
            let place = |rest: &str| {
                let (number, place) = rest.split_once(" at ").unwrap_or(("", ""));
                format!("refused{number} at {}\n", place.parse::<usize>().map_or(0, |place| place + 1))
            };
            lines(told, "refused", place)
        }
        Fault::TextNoPlace => lines(told, "refused", |rest| format!("refused{}\n", rest.split(" at").next().unwrap_or(""))),
        Fault::TextFourteenTold => told.replace("refused 14 at 33256", &format!("refused 14 at {}", input.len())),
        Fault::TextKept => match answer {
            0 => {
                *kept = told.into();
                return None;
            }
            _ if !kept.is_empty() => kept.clone(),
            _ => return None,
        },
        _ => return None,
    })
}
