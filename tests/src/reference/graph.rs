//! The graph of a log that passes: the links that count, the ways that a search depth first finds, and the voices of each episode.
//! It has no pauses.

use super::{joining, voicing};
use crate::words::{FROM, Link, Noted, Said, TO, VOICES, episode, episodes, kind, number, pause, version, voices};

pub struct Graph {
    pub n: usize,
    /// The links, rising and without repeats.
    pub links: Vec<Link>,
    /// The episodes that each episode is linked to, rising.
    pub next: Vec<Vec<usize>>,
    /// The voices of each episode.
    pub voices: Vec<usize>,
}

/// The voices words of a log that passes questions 1 to 10 and 18 to 21, in its order.
pub fn said(log: &[u32]) -> Vec<Said> {
    let words = log[1..log.len() - 1].iter().filter(|&&given| kind(given) == VOICES);
    words.map(|&given| (episode(given), voices(given))).collect()
}

/// The links of a log that passes questions 1 to 10 and 18 to 21, as it gives them: with their pauses and repeats, in its order.
pub fn noted(log: &[u32]) -> Vec<Noted> {
    let mut links = Vec::new();
    let mut from = 0;
    for &given in &log[1..log.len() - 1] {
        match kind(given) {
            FROM => from = number(given),
            TO => links.push((from, episode(given), pause(given))),
            VOICES => {}
            _ => unreachable!("the log passes"),
        }
    }
    links
}

impl Graph {
    /// The graph of the links between episodes that have these voices.
    pub fn new(voices: Vec<usize>, mut links: Vec<Link>) -> Graph {
        links.sort_unstable();
        links.dedup();
        let mut next = vec![Vec::new(); voices.len()];
        for &(from, to) in &links {
            next[from].push(to);
        }
        Graph { n: voices.len(), links, next, voices }
    }

    /// The graph of a log that passes questions 1 to 10 and 18 to 21: it has the links that count.
    pub fn of(log: &[u32]) -> Graph {
        let voices = voicing::by_words(episodes(log[0]), &said(log));
        Graph::new(voices, joining::by_words(version(log[0]), &noted(log)))
    }

    /// The same with every link that was heard.
    pub fn of_all(log: &[u32]) -> Graph {
        let voices = voicing::by_words(episodes(log[0]), &said(log));
        Graph::new(voices, noted(log).iter().map(|&(from, to, _)| (from, to)).collect())
    }

    /// The sum of the voices of these episodes.
    pub fn weight(&self, set: &[usize]) -> usize {
        set.iter().map(|&v| self.voices[v]).sum()
    }

    /// The same graph, each episode with one voice.
    pub fn with_one_voice(&self) -> Graph {
        Graph::new(vec![1; self.n], self.links.clone())
    }

    pub fn linked(&self, from: usize, to: usize) -> bool {
        self.next[from].binary_search(&to).is_ok()
    }

    /// Whether each episode has a way from `start`.
    pub fn ways_from(&self, start: usize) -> Vec<bool> {
        let mut seen = vec![false; self.n];
        let mut stack = vec![start];
        while let Some(at) = stack.pop() {
            for &to in &self.next[at] {
                if !seen[to] {
                    seen[to] = true;
                    stack.push(to);
                }
            }
        }
        seen
    }

    /// Whether there is a loop: taking away episodes that no link leads to, again and again, leaves some.
    pub fn has_loop(&self) -> bool {
        let mut leading = vec![0; self.n];
        for &(_, to) in &self.links {
            leading[to] += 1;
        }
        let mut free: Vec<usize> = (0..self.n).filter(|&v| leading[v] == 0).collect();
        let mut taken = 0;
        while let Some(at) = free.pop() {
            taken += 1;
            for &to in &self.next[at] {
                leading[to] -= 1;
                if leading[to] == 0 {
                    free.push(to);
                }
            }
        }
        taken < self.n
    }

    /// The graph without the episodes that are marked; the others are numbered anew, in the same order.
    pub fn without(&self, marked: &[bool]) -> Graph {
        let mut names = vec![0; self.n];
        let mut n = 0;
        for v in 0..self.n {
            names[v] = n;
            n += usize::from(!marked[v]);
        }
        let kept = self.links.iter().filter(|link| !marked[link.0] && !marked[link.1]);
        let voices = (0..self.n).filter(|&v| !marked[v]).map(|v| self.voices[v]).collect();
        Graph::new(voices, kept.map(|&(from, to)| (names[from], names[to])).collect())
    }
}
