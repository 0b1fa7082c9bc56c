//! Logs of many shapes.

use crate::counts::{Damage, Shape};
use crate::damage;
use crate::random::Random;
use crate::reference::{self, MOST_WITH_VOICES};
use crate::words::{END, FROM, HEAD, LARGEST_PAUSE, LARGEST_VOICES, LONGEST_COUNTED, Link, MOST_VOICES, Noted, Said, TO, VOICES};
use crate::words::{head_word, in_version, kind, log, pause, to_word, with_voices, word};
use std::collections::BTreeMap;

/// A log, its shape, and the damage that was done to it.
pub struct Made {
    pub words: Vec<u32>,
    pub shape: Shape,
    pub damage: Vec<Damage>,
}

/// Links between episodes below n, with pauses and repeats, and voices of some of these, in the order in which a log of this
/// version gives them.
#[derive(Clone)]
pub struct Linked {
    pub version: usize,
    pub n: usize,
    pub said: Vec<Said>,
    pub links: Vec<Noted>,
}

impl Linked {
    /// The least pause of each link.
    pub fn least(&self) -> BTreeMap<Link, usize> {
        let mut least = BTreeMap::new();
        for &(from, to, pause) in &self.links {
            let known = least.entry((from, to)).or_insert(pause);
            *known = pause.min(*known);
        }
        least
    }

    /// The voices of each episode.
    pub fn voices(&self) -> Vec<usize> {
        reference::voices(self.n, &self.said)
    }

    /// The most episodes that a log with these voices words, or without, can have.
    pub fn most(&self) -> usize {
        if self.said.is_empty() { MOST_EPISODES } else { MOST_WITH_VOICES }
    }

    /// Whether a link with this least pause counts.
    pub fn joins(&self, least: usize) -> bool {
        self.version == 0 || least <= LONGEST_COUNTED
    }

    /// The links that count, rising.
    pub fn counted(&self) -> Vec<Link> {
        self.least().into_iter().filter(|link| self.joins(link.1)).map(|link| link.0).collect()
    }
}

const MOST_EPISODES: usize = 200;
const MOST_LINKS: usize = 4_096;

/// A log of any shape.
pub fn any(random: &mut Random) -> Made {
    let shape = random.weighted(&[
        (Shape::Tiny, 140),
        (Shape::Sparse, 120),
        (Shape::Dense, 70),
        (Shape::Layered, 80),
        (Shape::Crossings, 90),
        (Shape::Stem, 60),
        (Shape::Wide, 70),
        (Shape::Repeats, 60),
        (Shape::Loops, 70),
        (Shape::Full, 50),
        (Shape::FullVoices, 25),
        (Shape::Ceilings, 90),
        (Shape::Damaged, 300),
        (Shape::Scrap, 80),
    ]);
    let mut damage = Vec::new();
    let words = match shape {
        Shape::Ceilings => ceilings(random),
        Shape::Scrap => scrap(random),
        Shape::Damaged => {
            let linked = match random.below(100) {
                0 | 1 => linked(Shape::Full, random),
                2 => linked(Shape::FullVoices, random),
                _ => passing(random).1,
            };
            let mut words = written(&linked, random);
            for _ in 0..random.weighted(&[(1, 6), (2, 3), (3, 1), (8, 1)]) {
                damage.push(damage::to_log(&mut words, random));
            }
            words
        }
        _ => {
            let mut linked = linked(shape, random);
            if linked.n > MOST_WITH_VOICES && random.chance(1, 8) {
                linked.said = said(linked.n, random);
            }
            written(&linked, random)
        }
    };
    Made { words, shape, damage }
}

/// Voices words for some episodes, each with voices that can be, in any order.
pub fn said(n: usize, random: &mut Random) -> Vec<Said> {
    let one = random.below(MOST_VOICES + 1);
    let few = random.between(1, 3).min(n);
    let all = |voices: usize| (0..n).map(|v| (v, voices)).collect();
    let mut said: Vec<Said> = match random.below(16) {
        0 | 1 => all(0),
        2 | 3 => all(2),
        4 => all(1),
        5 => (0..n).map(|v| (v, 2 * random.below(2))).collect(),
        6..=8 => (0..n).map(|v| (v, random.below(MOST_VOICES + 1))).collect(),
        9 | 10 => (0..n).filter(|_| random.chance(1, 3)).map(|v| (v, one)).collect(),
        11..=13 => (0..n).map(|v| (v, random.weighted(&[(0, 1), (1, 2), (2, 1)]))).filter(|said| said.1 != 1).collect(),
        _ => {
            let mut all: Vec<usize> = (0..n).collect();
            random.shuffle(&mut all);
            all[..few].iter().map(|&v| (v, random.below(MOST_VOICES + 1))).collect()
        }
    };
    match random.below(3) {
        0 => {}
        1 => said.reverse(),
        _ => random.shuffle(&mut said),
    }
    said
}

/// Links of a shape that passes.
pub fn passing(random: &mut Random) -> (Shape, Linked) {
    use Shape::*;
    let shape = *random.pick(&[Tiny, Sparse, Dense, Layered, Crossings, Stem, Wide, Repeats, Loops]);
    (shape, linked(shape, random))
}

/// The log of these links, its groups in one of several orders.
pub fn written(linked: &Linked, random: &mut Random) -> Vec<u32> {
    let mut links = linked.links.clone();
    match random.below(4) {
        0 => {}
        1 => random.shuffle(&mut links),
        2 => links.sort_by_key(|link| (link.0, link.1)),
        _ => {
            let mut order: Vec<usize> = (0..linked.n).collect();
            random.shuffle(&mut order);
            random.shuffle(&mut links);
            links.sort_by_key(|link| order[link.0]);
        }
    }
    let splits = *random.pick(&[0, 0, 4, 16]);
    with_voices(&linked.said, in_version(linked.version, log(linked.n, &links, splits, random)))
}

fn size(random: &mut Random) -> usize {
    match random.weighted(&[(0, 62), (1, 20), (2, 10), (3, 8)]) {
        0 => random.between(5, 12),
        1 => random.between(13, 24),
        2 => random.between(25, 60),
        _ => random.between(61, MOST_EPISODES),
    }
}

/// `count` links, each from an earlier to a later place.
fn forward(n: usize, count: usize, random: &mut Random) -> Vec<Link> {
    if n < 2 {
        return Vec::new();
    }
    let pair = |random: &mut Random| {
        let later = random.between(1, n - 1);
        (random.below(later), later)
    };
    (0..count).map(|_| pair(random)).collect()
}

/// Links of a shape.
pub fn linked(shape: Shape, random: &mut Random) -> Linked {
    let n = match shape {
        Shape::Tiny => random.between(0, 4),
        Shape::Full => MOST_EPISODES,
        Shape::FullVoices => MOST_WITH_VOICES,
        _ => size(random),
    };
    let mut links = match shape {
        Shape::Tiny => tiny(n, random),
        Shape::Dense => dense(n, random),
        Shape::Layered => layered(n, random),
        Shape::Crossings => crossings(n, random),
        Shape::Stem => {
            let mut links = stem(n, random);
            let count = random.between(0, n / 4);
            links.extend(forward(n, count, random));
            links
        }
        Shape::Wide => {
            let count = random.between(0, n / 4);
            forward(n, count, random)
        }
        Shape::Repeats => {
            let count = random.between(1, n);
            let once = forward(n, count, random);
            once.iter().flat_map(|&link| std::iter::repeat_n(link, random.between(1, 4))).collect()
        }
        Shape::Full | Shape::FullVoices => full(n, random),
        _ => {
            let count = random.between(n / 2, 2 * n);
            forward(n, count, random)
        }
    };
    let is_full = matches!(shape, Shape::Full | Shape::FullVoices);
    if shape == Shape::Loops || (is_full && random.chance(1, 8)) {
        add_loops(n, &mut links, random);
    }
    links.truncate(MOST_LINKS);
    if is_full {
        while links.len() < MOST_LINKS {
            links.push(*random.pick(&links));
        }
    }
    let mut links = noted(&links, random);
    // Every loop has a link that does not lead to a higher place: with a long pause it closes none in version 1.
    if random.chance(1, 2) {
        for link in links.iter_mut().filter(|link| link.0 >= link.1) {
            link.2 = long_pause(random);
        }
    }
    // The episodes get other names in most logs, so that their numbers say nothing of their order.
    if n > 0 && random.chance(3, 4) {
        let mut names: Vec<usize> = (0..n).collect();
        random.shuffle(&mut names);
        links = links.iter().map(|&(from, to, pause)| (names[from], names[to], pause)).collect();
    }
    let voiced = shape == Shape::FullVoices || (n <= MOST_WITH_VOICES && random.chance(1, 2));
    let said = if voiced && n > 0 { said(n, random) } else { Vec::new() };
    Linked { version: random.below(2), n, said, links }
}

/// Pauses at both ends and around the longest with which a link of version 1 counts.
pub const BORDERS: [usize; 6] = [0, 359, 360, 361, 400, LARGEST_PAUSE];

/// A pause with which a link of version 1 counts.
pub fn short_pause(random: &mut Random) -> usize {
    if random.chance(1, 4) { *random.pick(&BORDERS[..3]) } else { random.between(0, LONGEST_COUNTED) }
}

/// A pause with which it does not count.
pub fn long_pause(random: &mut Random) -> usize {
    if random.chance(1, 4) { *random.pick(&BORDERS[3..]) } else { random.between(LONGEST_COUNTED + 1, LARGEST_PAUSE) }
}

/// Any pause; short ones and those with one bit are met often.
pub fn any_pause(random: &mut Random) -> usize {
    match random.below(8) {
        0 => *random.pick(&BORDERS),
        1 => 1 << random.below(12),
        2 | 3 => short_pause(random),
        4 => long_pause(random),
        5 => *random.pick(&[0, LARGEST_PAUSE]),
        _ => random.between(0, LARGEST_PAUSE),
    }
}

/// How a pause is chosen.
type Choice = fn(&mut Random) -> usize;

/// The links, each with a pause: none at all, as in older logs, a few minutes, any, around the border, or most short.
fn paused(links: &[Link], random: &mut Random) -> Vec<Noted> {
    let kinds: [(Choice, usize); 5] = [
        (|_| 0, 5),
        (|random| random.between(0, 3), 3),
        (any_pause, 4),
        (|random| *random.pick(&BORDERS), 2),
        (|random| if random.chance(1, 6) { long_pause(random) } else { short_pause(random) }, 5),
    ];
    let pause = random.weighted(&kinds);
    links.iter().map(|&(from, to)| (from, to, pause(random))).collect()
}

/// The links with pauses. In one of four logs some links are given again, with other pauses, as far as there is room.
pub fn noted(links: &[Link], random: &mut Random) -> Vec<Noted> {
    let mut noted = paused(links, random);
    if links.is_empty() || random.chance(3, 4) {
        return noted;
    }
    for _ in 0..random.between(1, 8) {
        let (from, to) = *random.pick(links);
        for _ in 0..random.between(2, 4).min(MOST_LINKS.saturating_sub(noted.len())) {
            noted.insert(random.below(noted.len() + 1), (from, to, any_pause(random)));
        }
    }
    noted
}

fn tiny(n: usize, random: &mut Random) -> Vec<Link> {
    let (times, own) = (random.between(1, 5), random.chance(1, 8));
    let back = random.chance(1, 3);
    let mut links = Vec::new();
    for from in 0..n {
        for to in 0..n {
            let meant = if from == to { own } else { back || from < to };
            if meant && random.chance(times, 8) {
                links.push((from, to));
            }
        }
    }
    links
}

fn dense(n: usize, random: &mut Random) -> Vec<Link> {
    let times = random.between(3, 8);
    let mut links = Vec::new();
    for to in 1..n {
        links.extend((0..to).filter(|_| random.chance(times, 8)).map(|from| (from, to)));
    }
    random.shuffle(&mut links);
    links
}

fn layered(n: usize, random: &mut Random) -> Vec<Link> {
    let layers = random.between(2, 5);
    let layer: Vec<usize> = (0..n).map(|_| random.below(layers)).collect();
    let times = random.between(1, 6);
    let mut links = Vec::new();
    for from in 0..n {
        for to in 0..n {
            if layer[from] + 1 == layer[to] && random.chance(times, 8) {
                links.push((from, to));
            }
        }
    }
    links
}

fn crossings(n: usize, random: &mut Random) -> Vec<Link> {
    let chains = random.between(1, 4).min(n);
    let mut links: Vec<Link> = (chains..n).map(|v| (v - chains, v)).collect();
    let count = random.between(0, n / 2);
    links.extend(forward(n, count, random));
    links
}

/// Episodes that lead into a chain, and others that it leads to: the longest reports have this shape.
fn stem(n: usize, random: &mut Random) -> Vec<Link> {
    let first = random.between(0, n / 2);
    let last = random.between(first, n - 1);
    let before = (0..first).map(|v| (v, first));
    let chain = (first..last).map(|v| (v, v + 1));
    before.chain(chain).chain((last + 1..n).map(|v| (last, v))).collect()
}

fn add_loops(n: usize, links: &mut Vec<Link>, random: &mut Random) {
    for _ in 0..random.between(1, 3) {
        let place = random.below(links.len() + 1);
        match random.below(4) {
            0 => {
                let v = random.below(n);
                links.insert(place, (v, v));
            }
            1 => {
                let mut order: Vec<usize> = (0..n).collect();
                random.shuffle(&mut order);
                let length = random.between(1, n);
                let round = (0..length).map(|i| (order[i], order[(i + 1) % length]));
                links.splice(place..place, round);
            }
            _ => {
                let (from, to) = (random.below(n), random.below(n));
                links.insert(place, (from, to));
            }
        }
    }
}

/// Links on the most episodes, of several kinds; they are cut or repeated to 4,096 afterwards.
fn full(n: usize, random: &mut Random) -> Vec<Link> {
    match random.below(9) {
        0 => forward(n, MOST_LINKS, random),
        1 => (0..MOST_LINKS).map(|_| (random.below(n / 2), n / 2 + random.below(n / 2))).collect(),
        2 => (1..n).map(|v| (v - 1, v)).collect(),
        5 => stem(n, random),
        3 => {
            let chains = random.between(2, 60);
            let mut links: Vec<Link> = (chains..n).map(|v| (v - chains, v)).collect();
            let count = random.between(1, 300);
            links.extend(forward(n, count, random));
            links
        }
        4 => {
            let (reach, count) = (random.between(1, 60), random.between(200, MOST_LINKS));
            let pair = |random: &mut Random| {
                let from = random.below(n - 1);
                (from, random.between(from + 1, (from + reach).min(n - 1)))
            };
            (0..count).map(|_| pair(random)).collect()
        }
        6 | 7 => {
            // Different links, as many as there can be.
            let mut links: Vec<Link> = (1..n).flat_map(|to| (0..to).map(move |from| (from, to))).collect();
            random.shuffle(&mut links);
            links
        }
        _ => {
            let count = random.between(1, 400);
            forward(n, count, random)
        }
    }
}

/// More voices than an episode can have; few, those with one bit, and those that the low 2 bits take for fewer are met often.
pub fn any_voices(random: &mut Random) -> usize {
    match random.below(5) {
        0 | 1 => 3,
        2 => 1 << random.between(2, 11),
        3 => 4 * random.between(1, 1_023) + random.below(3),
        _ => random.between(3, LARGEST_VOICES),
    }
}

/// More episodes than a log has, and the most that a head can give.
pub const MANY: [usize; 7] = [201, 202, 255, 256, 65_536, 65_537, (1 << 24) - 1];

/// Logs with 199 to 202 episodes or more, with 119 to 122 and voices words, or with 4,095 to words or more.
fn ceilings(random: &mut Random) -> Vec<u32> {
    let any = random.below(16);
    let version = random.weighted(&[(0, 4), (1, 4), (any, 1)]);
    if random.chance(1, 4) {
        let n = random.between(119, 122);
        let links = forward(n, random.below(200), random);
        let words = log(n, &noted(&links, random), 4, random);
        let mut said = said(n, random);
        // Voices words that earn other refusals: an episode that is not there, more voices than can be, the same episode again.
        for _ in 0..random.below(3) {
            let odd =
                [(n + random.below(3), 1), (random.below(n), any_voices(random)), (random.below(n), random.below(3)), (n, 3)];
            said.insert(random.below(said.len() + 1), *random.pick(&odd));
        }
        return in_version(version, with_voices(&said, words));
    }
    if random.chance(1, 2) {
        let n = if random.chance(1, 3) { random.between(199, 200) } else { *random.pick(&MANY) };
        let count = random.between(0, 20);
        let links = forward(n.min(300), count, random);
        return in_version(version, log(n, &noted(&links, random), 4, random));
    }
    let n = random.between(1, MOST_EPISODES);
    let count = *random.pick(&[4_095, 4_096, 4_097, 4_097, 4_097, 4_098, 4_400]);
    let splits = *random.pick(&[0, 1, 16]);
    let mut links = forward(n.max(2), count, random);
    links.sort_unstable();
    let mut words = log(n, &paused(&links, random), splits, random);
    // An episode that is too high beside the last to word that is allowed: question 7 is asked of a word before 8.
    if random.chance(1, 4) {
        let place = words.len() - 1 - random.between(1, 6);
        let high = random.between(n, 300);
        words[place] = match kind(words[place]) {
            TO => to_word(high, pause(words[place])),
            kind => word(kind, high),
        };
    }
    in_version(version, words)
}

/// A few words, most of them of the kinds that a log has.
fn scrap(random: &mut Random) -> Vec<u32> {
    let count = random.between(0, 9);
    let mut words: Vec<u32> = (0..count)
        .map(|_| {
            let kind = random.weighted(&[(HEAD, 1), (FROM, 6), (TO, 9), (END, 1), (0, 1), (VOICES, 5)]);
            let high = match kind {
                TO if random.chance(1, 2) => any_pause(random),
                VOICES if random.chance(1, 8) => any_voices(random),
                VOICES => random.below(MOST_VOICES + 1),
                _ if random.chance(1, 16) => any_pause(random),
                _ => 0,
            };
            word(kind, random.below(4)) | word(0, high << 16)
        })
        .collect();
    // Voices words stand in front of the groups in most logs.
    if words.len() > 2 && random.chance(3, 4) {
        let last = words.len() - 1;
        words[1..last].sort_by_key(|&given| kind(given) != VOICES);
    }
    if let [first, .., last] = &mut words[..] {
        if random.chance(9, 10) {
            let any = random.below(16);
            *first = head_word(random.weighted(&[(0, 6), (1, 3), (any, 1)]), random.between(0, 4));
        }
        if random.chance(3, 4) {
            *last = word(END, random.below(5));
        }
    } else if let [only] = &mut words[..] {
        *only = head_word(random.below(16), random.below(4));
    }
    words
}
