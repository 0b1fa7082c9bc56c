//! The same report, trimmed copy and link count by a plain program: bit sets, their closure, and Hopcroft-Karp matching for the
//! report. An episode with c voices is matched as c items. The library is measured beside it.

use crate::shapes::{EPISODES, WORDS};
use zohapy::{
    LONGEST_PAUSE, MOST_VOICES, MOST_WITH_VOICES, Refusal, WORK_WORDS, copy_words_with_voices, episode, head_episodes,
    head_version, kind, number, pause, report_words, report_words_with_voices,
};

/// A set of episodes or of items.
type Row = [u64; 4];
type Matrix = [Row; EPISODES];

/// The voices of each episode. A log with more episodes has no voices words.
type Voices = [u8; MOST_WITH_VOICES];

/// The most items. Without voices words the items are the episodes, of which there are fewer.
const ITEMS: usize = MOST_WITH_VOICES * MOST_VOICES as usize;

/// No item.
const NONE: u8 = u8::MAX;

/// How much a log that passes has of each.
#[derive(Clone, Copy)]
pub struct Figures {
    pub episodes: usize,
    pub to_words: usize,
    pub voices_words: usize,
}

impl Figures {
    /// The output words that the report needs.
    pub fn report_words(self) -> usize {
        if self.voices_words == 0 { report_words(self.episodes) } else { report_words_with_voices(self.episodes) }
    }

    /// The output words that a copy needs.
    pub fn copy_words(self) -> usize {
        copy_words_with_voices(self.to_words, self.voices_words)
    }
}

/// What the report and the trimmed copy are made of.
struct Graph<'a> {
    links: &'a [Row],
    ways: &'a [Row],
    /// The voices of each episode, where the log has a voices word.
    voices: Option<&'a [u8]>,
}

fn has(row: &Row, b: usize) -> bool {
    row[b / 64] >> (b % 64) & 1 == 1
}

fn insert(row: &mut Row, b: usize) {
    row[b / 64] |= 1 << (b % 64);
}

fn remove(row: &mut Row, b: usize) {
    row[b / 64] &= !(1 << (b % 64));
}

/// Puts the members of `more` into `row`.
fn join(row: &mut Row, more: &Row) {
    row.iter_mut().zip(more).for_each(|(word, &other)| *word |= other);
}

/// Takes the members of `less` out of `row`.
fn cut(row: &mut Row, less: &Row) {
    row.iter_mut().zip(less).for_each(|(word, &other)| *word &= !other);
}

/// The least member of `a` that is in `b` too.
fn first_common(a: &Row, b: &Row) -> Option<usize> {
    (0..4).find(|&i| a[i] & b[i] != 0).map(|i| 64 * i + (a[i] & b[i]).trailing_zeros() as usize)
}

/// The members of a set, rising.
fn members(row: &Row) -> impl Iterator<Item = usize> {
    row.iter().enumerate().flat_map(|(i, &word)| {
        let mut left = word;
        std::iter::from_fn(move || {
            (left != 0).then(|| {
                let b = left.trailing_zeros() as usize;
                left &= left - 1;
                64 * i + b
            })
        })
    })
}

/// Questions 20, 7, 19 and 21 at each of the voices words, which stand behind the head of a log of `n` episodes. Sets the voices.
fn read_voices(words: &[u32], n: usize, voices: &mut Voices) -> Result<(), Refusal> {
    let mut marked = [0; 4];
    for (i, &word) in words.iter().enumerate() {
        let refuse = |number| Err(Refusal { number, place: i + 1 });
        let v = episode(word) as usize;
        if n > MOST_WITH_VOICES {
            return refuse(20);
        }
        if v >= n {
            return refuse(7);
        }
        if zohapy::voices(word) > MOST_VOICES {
            return refuse(19);
        }
        if has(&marked, v) {
            return refuse(21);
        }
        insert(&mut marked, v);
        voices[v] = zohapy::voices(word) as u8;
    }
    Ok(())
}

/// Questions 1 to 10 and 18 to 21. Sets the voices, and marks the links that count: those with a to word whose pause is not too
/// long.
fn read(log: &[u32], links: &mut Matrix, voices: &mut Voices) -> Result<Figures, Refusal> {
    let refuse = |number, place| Err(Refusal { number, place });
    let &[head, ref words @ .., end] = log else {
        return refuse(1, 0);
    };
    if kind(head) != 1 {
        return refuse(2, 0);
    }
    let longest = match head_version(head) {
        0 => u32::MAX,
        1 => LONGEST_PAUSE,
        _ => return refuse(18, 0),
    };
    let n = head_episodes(head) as usize;
    if n > EPISODES {
        return refuse(3, 0);
    }
    let voices_words = words.iter().take_while(|&&word| kind(word) == 9).count();
    let (marks, groups) = words.split_at(voices_words);
    read_voices(marks, n, voices)?;
    let mut from = None;
    let mut count = 0;
    for (i, &word) in groups.iter().enumerate() {
        let place = voices_words + i + 1;
        match kind(word) {
            2 => {
                let earlier = number(word) as usize;
                if groups.get(i + 1).is_none_or(|&next| kind(next) != 3) {
                    return refuse(6, place);
                }
                if earlier >= n {
                    return refuse(7, place);
                }
                from = Some(earlier);
            }
            3 => {
                let Some(from) = from else {
                    return refuse(5, place);
                };
                let later = episode(word) as usize;
                if later >= n {
                    return refuse(7, place);
                }
                if count == WORDS {
                    return refuse(8, place);
                }
                // Without a branch: where half of the pauses are too long, it could not be foreseen.
                links[from][later / 64] |= u64::from(pause(word) <= longest) << (later % 64);
                count += 1;
            }
            _ => return refuse(4, place),
        }
    }
    let last = log.len() - 1;
    if kind(end) != 15 {
        return refuse(9, last);
    }
    if number(end) as usize != count {
        return refuse(10, last);
    }
    Ok(Figures { episodes: n, to_words: count, voices_words })
}

/// Warshall's closure, a row at a time. It stays a function of its own: inlined, its time depends on where its loop comes to lie.
#[inline(never)]
fn close(ways: &mut [Row]) {
    for k in 0..ways.len() {
        let through = ways[k];
        for row in ways.iter_mut() {
            if has(row, k) {
                join(row, &through);
            }
        }
    }
}

/// A shortest loop through `v`, which has a way to itself and is the least such episode.
fn shortest_loop(links: &[Row], v: usize) -> Vec<usize> {
    let mut before = vec![None; links.len()];
    let mut queue = std::collections::VecDeque::from([v]);
    while let Some(a) = queue.pop_front() {
        for b in members(&links[a]) {
            if before[b].is_none() {
                before[b] = Some(a);
                queue.push_back(b);
            }
        }
    }
    let mut steps = vec![];
    let mut at = v;
    while let Some(a) = before[at] {
        steps.push(a);
        at = a;
        if a == v {
            break;
        }
    }
    steps.reverse();
    steps
}

/// The items of a log with voices words: an episode with c voices is c items, in the order of the episodes.
struct Items {
    count: usize,
    /// Whose each is.
    owners: [u8; ITEMS],
    /// The items to whose owners its owner has a way.
    ways: [Row; ITEMS],
}

impl Items {
    fn of(ways: &[Row], voices: &[u8]) -> Self {
        let mut items = Items { count: 0, owners: [0; ITEMS], ways: [[0; 4]; ITEMS] };
        let mut own = [[0; 4]; MOST_WITH_VOICES];
        for (v, &c) in voices.iter().enumerate() {
            for _ in 0..c {
                insert(&mut own[v], items.count);
                items.owners[items.count] = v as u8;
                items.count += 1;
            }
        }
        for (v, own_items) in own[..voices.len()].iter().enumerate() {
            let mut row = [0; 4];
            if *own_items != row {
                members(&ways[v]).for_each(|b| join(&mut row, &own[b]));
            }
            members(own_items).for_each(|x| items.ways[x] = row);
        }
        items
    }
}

/// Chains of ways, as a matching: the item behind each item and the one before it, and the items that have none behind them, or
/// none before them.
struct Chains<'a> {
    ways: &'a [Row],
    next: [u8; ITEMS],
    prev: [u8; ITEMS],
    ends: Row,
    starts: Row,
    /// What the last search saw first from each of its levels, and in all.
    layers: [Row; ITEMS + 1],
    seen: Row,
}

impl<'a> Chains<'a> {
    /// Each item is a chain.
    fn new(ways: &'a [Row]) -> Self {
        let mut all = [0; 4];
        for x in 0..ways.len() {
            insert(&mut all, x);
        }
        let next = [NONE; ITEMS];
        Chains { ways, next, prev: next, ends: all, starts: all, layers: [[0; 4]; ITEMS + 1], seen: [0; 4] }
    }

    /// Puts `b` behind `a`.
    fn put(&mut self, a: usize, b: usize) {
        self.next[a] = b as u8;
        self.prev[b] = a as u8;
    }

    /// A first matching: each item with the least that it has a way to and that has none before it.
    fn start(&mut self) {
        for a in 0..self.ways.len() {
            if let Some(b) = first_common(&self.ways[a], &self.starts) {
                self.put(a, b);
                remove(&mut self.ends, a);
                remove(&mut self.starts, b);
            }
        }
    }

    /// Searches breadth first from the chain ends, up to the level on which a chain start is seen. Says whether one is.
    fn search(&mut self) -> bool {
        let mut from = self.ends;
        self.seen = [0; 4];
        for level in 0.. {
            let mut new = [0; 4];
            for a in members(&from) {
                join(&mut new, &self.ways[a]);
            }
            cut(&mut new, &self.seen);
            join(&mut self.seen, &new);
            self.layers[level] = new;
            if new == [0; 4] {
                return false;
            }
            if first_common(&new, &self.starts).is_some() {
                self.layers[level + 1] = [0; 4];
                return true;
            }
            from = [0; 4];
            for b in members(&new) {
                insert(&mut from, self.prev[b] as usize);
            }
        }
        false
    }

    /// Gives `a`, of a level, an item behind it by way of the later levels. Each item is tried once.
    fn augment(&mut self, a: usize, level: usize) -> bool {
        while let Some(b) = first_common(&self.ways[a], &self.layers[level]) {
            remove(&mut self.layers[level], b);
            if has(&self.starts, b) {
                remove(&mut self.starts, b);
            } else if !self.augment(self.prev[b] as usize, level + 1) {
                continue;
            }
            self.put(a, b);
            return true;
        }
        false
    }

    /// Hopcroft-Karp: as few chains as can be.
    fn shrink(&mut self) {
        self.start();
        while self.search() {
            let ends = self.ends;
            for a in members(&ends) {
                if self.augment(a, 0) {
                    remove(&mut self.ends, a);
                }
            }
        }
    }

    /// The furthest apart set. Of the items of one episode it has all or none, as they have the same ways.
    fn apart(&self) -> Row {
        let mut apart = [0; 4];
        for x in 0..self.ways.len() {
            if !has(&self.seen, x) && (self.next[x] == NONE || has(&self.seen, self.next[x] as usize)) {
                insert(&mut apart, x);
            }
        }
        apart
    }
}

/// Writes the report by the ways of the items, and gives the count of its words.
fn write_by_items(graph: &Graph, items: &[Row], owner: impl Fn(usize) -> usize, out: &mut [u32]) -> usize {
    let mut chains = Chains::new(items);
    chains.shrink();
    let apart = chains.apart();
    let mut at = 1;
    let mut before = None;
    for v in members(&apart).map(&owner) {
        if before.replace(v) != Some(v) {
            out[at] = 0x5000_0000 | v as u32;
            at += 1;
        }
    }
    let mut width = 0;
    for mut x in members(&apart) {
        while chains.prev[x] != NONE {
            x = chains.prev[x] as usize;
        }
        let mut v = owner(x);
        let thread = at;
        at += 1;
        out[at] = 0x7000_0000 | v as u32;
        at += 1;
        while chains.next[x] != NONE {
            x = chains.next[x] as usize;
            let target = owner(x);
            while v != target {
                v = members(&graph.links[v]).find(|&b| b == target || has(&graph.ways[b], target)).expect("there is a way");
                out[at] = 0x7000_0000 | v as u32;
                at += 1;
            }
        }
        out[thread] = 0x6000_0000 | (at - thread - 1) as u32;
        width += 1;
    }
    out[0] = 0x4000_0000 | width;
    out[at] = 0xF000_0000 | at as u32;
    at + 1
}

/// Writes the report, and gives the count of its words.
fn write_report(graph: &Graph, out: &mut [u32]) -> usize {
    let Some(voices) = graph.voices else {
        return write_by_items(graph, graph.ways, |v| v, out);
    };
    let items = Items::of(graph.ways, voices);
    write_by_items(graph, &items.ways[..items.count], |x| items.owners[x] as usize, out)
}

/// Writes the trimmed copy, and gives the count of its words.
fn write_trimmed(graph: &Graph, out: &mut [u32]) -> usize {
    out[0] = 0x1000_0000 | graph.links.len() as u32;
    let mut at = 1;
    let mut count = 0;
    for (v, &c) in graph.voices.into_iter().flatten().enumerate().filter(|&(_, &c)| c != 1) {
        out[at] = 0x9000_0000 | u32::from(c) << 16 | v as u32;
        at += 1;
    }
    for (a, row) in graph.links.iter().enumerate() {
        let mut implied = [0; 4];
        members(row).for_each(|b| join(&mut implied, &graph.ways[b]));
        let mut kept = *row;
        cut(&mut kept, &implied);
        if kept == [0; 4] {
            continue;
        }
        out[at] = 0x2000_0000 | a as u32;
        at += 1;
        members(&kept).for_each(|b| {
            out[at] = 0x3000_0000 | b as u32;
            at += 1;
            count += 1;
        });
    }
    out[at] = 0xF000_0000 | count;
    at + 1
}

/// Writes a loop, and gives its length.
fn write_loop(steps: &[usize], out: &mut [u32]) -> usize {
    out[0] = 0x8000_0000 | steps.len() as u32;
    for (word, &step) in out[1..].iter_mut().zip(steps) {
        *word = 0x7000_0000 | step as u32;
    }
    steps.len()
}

/// Questions 1 to 13 and 18 to 21, where 11 asks for the words `needed`; then what `write` makes of the graph. Leaves the buffers
/// as the library does.
fn answer(
    log: &[u32],
    out: &mut [u32],
    work: &mut [u32],
    needed: impl Fn(Figures) -> usize,
    write: impl Fn(&Graph, &mut [u32]) -> usize,
) -> Result<usize, Refusal> {
    let mut links = [[0; 4]; EPISODES];
    let mut voices = [1; MOST_WITH_VOICES];
    let figures = read(log, &mut links, &mut voices)?;
    let needed = needed(figures);
    if out.len() < needed {
        return Err(Refusal { number: 11, place: needed });
    }
    if work.len() < WORK_WORDS {
        return Err(Refusal { number: 12, place: WORK_WORDS });
    }
    let n = figures.episodes;
    let links = &links[..n];
    let mut ways = [[0; 4]; EPISODES];
    let ways = &mut ways[..n];
    ways.copy_from_slice(links);
    close(ways);
    let result = match (0..n).find(|&v| has(&ways[v], v)) {
        Some(v) => Err(Refusal { number: 13, place: write_loop(&shortest_loop(links, v), out) }),
        None => {
            let voices = (figures.voices_words > 0).then(|| &voices[..n]);
            Ok(write(&Graph { links, ways, voices }, out))
        }
    };
    work[..WORK_WORDS].fill(0);
    result
}

/// The report: its count of words, or a refusal, 13 with a loop. It stays a function of its own, so that it can be counted.
#[inline(never)]
pub fn report(log: &[u32], out: &mut [u32], work: &mut [u32]) -> Result<usize, Refusal> {
    answer(log, out, work, Figures::report_words, write_report)
}

/// The trimmed copy, in the same way.
#[inline(never)]
pub fn trimmed_copy(log: &[u32], out: &mut [u32], work: &mut [u32]) -> Result<usize, Refusal> {
    answer(log, out, work, Figures::copy_words, write_trimmed)
}

/// The link count, or a refusal 1 to 10 or 18 to 21.
#[inline(never)]
pub fn link_count(log: &[u32]) -> Result<usize, Refusal> {
    let mut links = [[0; 4]; EPISODES];
    let n = read(log, &mut links, &mut [1; MOST_WITH_VOICES])?.episodes;
    Ok(links[..n].iter().flatten().map(|word| word.count_ones() as usize).sum())
}
