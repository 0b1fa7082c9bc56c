//! The width and the furthest apart set of a graph without loops, by roads that have little in common:
//! - `by_subsets`: every subset of the episodes with voices is tried, and the furthest of the heaviest is picked by its definition;
//! - `cover_by_unions`: the smallest cover, from all threads and what each of them leaves to be covered;
//! - `by_flow`: a smallest flow on the links themselves, without their closure, with the voices as lower bounds;
//! - `is_furthest`: the definition of the furthest set, asked of a set by widths alone.

use super::graph::Graph;

/// The largest n for `by_subsets`, and for `cover_by_unions`.
pub const FEW: usize = 12;
pub const FEWER: usize = 7;

/// The furthest apart set, rising, out of all subsets. At most 16 episodes.
pub fn by_subsets(graph: &Graph) -> Vec<usize> {
    let n = graph.n;
    let as_mask = |marks: Vec<bool>| (0..n).filter(|&v| marks[v]).map(|v| 1u32 << v).sum::<u32>();
    let behind: Vec<u32> = (0..n).map(|v| as_mask(graph.ways_from(v))).collect();
    let doors = as_mask((0..n).map(|v| graph.voices[v] == 0).collect());
    let members = |mask: u32| (0..n).filter(move |v| mask >> v & 1 == 1);
    let mut heaviest: Vec<(u32, u32)> = Vec::new();
    let mut most = 0;
    for mask in (0..1u32 << n).filter(|mask| mask & doors == 0) {
        let weight = members(mask).map(|v| graph.voices[v]).sum::<usize>();
        if weight < most {
            continue;
        }
        let reached = members(mask).fold(0, |all, v| all | behind[v]);
        if reached & mask == 0 {
            if weight > most {
                most = weight;
                heaviest.clear();
            }
            heaviest.push((mask, reached));
        }
    }
    // A set is at least as far along as another if each member is in the other or has a way from a member of the
    // other.
    let furthest: Vec<u32> = heaviest
        .iter()
        .map(|&(set, _)| set)
        .filter(|set| heaviest.iter().all(|&(other, reached)| set & !(other | reached) == 0))
        .collect();
    assert!(furthest.len() == 1, "the reference: {} furthest apart sets", furthest.len());
    members(furthest[0]).collect()
}

/// The size of the smallest cover: how many threads it takes until each episode is on as many of them as it has voices. What is
/// left to be covered is written in base 3, a figure for each episode. At most 9 episodes.
pub fn cover_by_unions(graph: &Graph) -> usize {
    fn collect(graph: &Graph, at: usize, mask: u32, found: &mut [bool]) {
        if !found[mask as usize] {
            found[mask as usize] = true;
            for &to in &graph.next[at] {
                collect(graph, to, mask | 1 << to, found);
            }
        }
    }
    // Without loops the last episode of a thread is settled by which episodes it holds, so a mask stands for one
    // thread.
    let mut found = vec![false; 1 << graph.n];
    for v in 0..graph.n {
        collect(graph, v, 1 << v, &mut found);
    }
    let threads: Vec<usize> = (1..found.len()).filter(|&mask| found[mask]).collect();
    let figure = |v: usize| 3usize.pow(v as u32);
    let covered = |left: usize, thread: usize| {
        let on = |&v: &usize| thread >> v & 1 == 1 && !(left / figure(v)).is_multiple_of(3);
        left - (0..graph.n).filter(on).map(figure).sum::<usize>()
    };
    let mut seen = vec![false; figure(graph.n)];
    let mut lefts = vec![(0..graph.n).map(|v| graph.voices[v] * figure(v)).sum::<usize>()];
    let mut count = 0;
    while !lefts.contains(&0) {
        let mut fewer = Vec::new();
        for left in lefts {
            for &thread in &threads {
                let left = covered(left, thread);
                if !seen[left] {
                    seen[left] = true;
                    fewer.push(left);
                }
            }
        }
        lefts = fewer;
        count += 1;
    }
    count
}

/// An arc of the flow network. The arc that leads back stands beside it, at its index with the last bit turned.
struct Arc {
    to: usize,
    room: usize,
}

struct Network {
    arcs: Vec<Arc>,
    leaving: Vec<Vec<usize>>,
    level: Vec<usize>,
    tried: Vec<usize>,
}

const ANY: usize = usize::MAX / 4;
const NEVER: usize = usize::MAX;

impl Network {
    fn new(nodes: usize) -> Network {
        Network { arcs: Vec::new(), leaving: vec![Vec::new(); nodes], level: vec![NEVER; nodes], tried: vec![0; nodes] }
    }

    /// An arc that takes any amount, and of whose flow `back` can be taken away.
    fn arc(&mut self, from: usize, to: usize, back: usize) {
        self.leaving[from].push(self.arcs.len());
        self.arcs.push(Arc { to, room: ANY });
        self.leaving[to].push(self.arcs.len());
        self.arcs.push(Arc { to: from, room: back });
    }

    /// Gives each node its distance from `start` over arcs with room.
    fn set_levels(&mut self, start: usize) {
        self.level.fill(NEVER);
        self.level[start] = 0;
        let mut queue = vec![start];
        let mut first = 0;
        while first < queue.len() {
            let at = queue[first];
            first += 1;
            for &arc in &self.leaving[at] {
                let Arc { to, room } = self.arcs[arc];
                if room > 0 && self.level[to] == NEVER {
                    self.level[to] = self.level[at] + 1;
                    queue.push(to);
                }
            }
        }
    }

    /// Sends at most `most` from `at` to `end`, one level at each step.
    fn send(&mut self, at: usize, end: usize, most: usize) -> usize {
        if at == end {
            return most;
        }
        let mut sent = 0;
        while self.tried[at] < self.leaving[at].len() {
            let arc = self.leaving[at][self.tried[at]];
            let Arc { to, room } = self.arcs[arc];
            if room > 0 && self.level[to] == self.level[at] + 1 {
                let part = self.send(to, end, room.min(most - sent));
                self.arcs[arc].room -= part;
                self.arcs[arc ^ 1].room += part;
                sent += part;
                if sent == most {
                    return sent;
                }
            }
            self.tried[at] += 1;
        }
        sent
    }
}

/// A smallest flow, and how much it is. Each episode is an arc from its entry to its exit that must carry at least its voices, each
/// link an arc from an exit to an entry, and flow comes in at every entry and goes out at every exit. A flow of this kind is a
/// cover. The first has a thread of one episode for each voice; what can be sent from the end back to the start, by phases of
/// blocking flows, is taken away. Of the arcs of episode v the first stands at 6 v, those of the links stand behind all these.
fn smallest_flow(graph: &Graph) -> (Network, usize) {
    let n = graph.n;
    let (start, end) = (2 * n, 2 * n + 1);
    let mut network = Network::new(2 * n + 2);
    for v in 0..n {
        network.arc(start, 2 * v, graph.voices[v]);
        network.arc(2 * v, 2 * v + 1, 0);
        network.arc(2 * v + 1, end, graph.voices[v]);
    }
    for &(from, to) in &graph.links {
        network.arc(2 * from + 1, 2 * to, 0);
    }
    let mut width = graph.voices.iter().sum();
    loop {
        network.set_levels(end);
        if network.level[start] == NEVER {
            return (network, width);
        }
        network.tried.fill(0);
        width -= network.send(end, start, ANY);
    }
}

/// The furthest apart set, rising, from a smallest flow: the end reaches the smallest part of the network that no arc leads out of
/// and that only full arcs lead into. The episodes with voices whose exits it holds without their entries are the heaviest apart
/// set that is furthest along.
pub fn by_flow(graph: &Graph) -> Vec<usize> {
    let (network, width) = smallest_flow(graph);
    let reached = |node: usize| network.level[node] != NEVER;
    let full = |&v: &usize| !reached(2 * v) && reached(2 * v + 1) && graph.voices[v] > 0;
    let furthest: Vec<usize> = (0..graph.n).filter(full).collect();
    let weight = graph.weight(&furthest);
    assert!(weight == width, "the reference: a flow of {width} and members with {weight} voices");
    furthest
}

/// A smallest cover: the threads of a smallest flow, from which one after another is taken.
pub fn smallest_cover(graph: &Graph) -> Vec<Vec<usize>> {
    let (network, width) = smallest_flow(graph);
    let carried = |arc: usize| network.arcs[arc + 1].room;
    let begun: Vec<usize> = (0..graph.n).flat_map(|v| std::iter::repeat_n(v, carried(6 * v))).collect();
    let mut ended: Vec<usize> = (0..graph.n).map(|v| carried(6 * v + 4)).collect();
    let mut along: Vec<usize> = (0..graph.links.len()).map(|link| carried(6 * graph.n + 2 * link)).collect();
    let mut threads = Vec::new();
    for first in begun {
        let (mut thread, mut at) = (vec![first], first);
        while ended[at] == 0 {
            let link = (0..along.len()).find(|&link| graph.links[link].0 == at && along[link] > 0);
            let link = link.expect("what comes in goes out");
            along[link] -= 1;
            at = graph.links[link].1;
            thread.push(at);
        }
        ended[at] -= 1;
        threads.push(thread);
    }
    assert!(threads.len() == width, "the reference: {} threads of a flow of {width}", threads.len());
    threads
}

/// Whether a heaviest apart set is the furthest, from the definition: every apart set of its weight holds, for each of
/// its members, that member or an episode with a way to it. So without these episodes the width must be smaller.
pub fn is_furthest(graph: &Graph, set: &[usize]) -> bool {
    let mut turned = vec![Vec::new(); graph.n];
    for &(from, to) in &graph.links {
        turned[to].push(from);
    }
    let back = Graph { n: graph.n, links: Vec::new(), next: turned, voices: Vec::new() };
    set.iter().all(|&member| {
        let mut before = back.ways_from(member);
        before[member] = true;
        let others = graph.without(&before);
        others.weight(&by_flow(&others)) < graph.weight(set)
    })
}

#[cfg(test)]
mod tests {
    use super::*;
    use crate::checkers::no_cover;

    /// Every graph on four episodes whose links lead to higher numbers, with every voices.
    fn graphs() -> impl Iterator<Item = Graph> {
        let pairs = [(0, 1), (0, 2), (0, 3), (1, 2), (1, 3), (2, 3)];
        (0..64 * 81).map(move |i| {
            let links = (0..6).filter(|&pair| (i / 81) >> pair & 1 == 1).map(|pair| pairs[pair]).collect();
            Graph::new((0..4).map(|v| i / 3usize.pow(v) % 3).collect(), links)
        })
    }

    #[test]
    fn all_roads_lead_to_one_set_and_one_width() {
        for graph in graphs() {
            let furthest = by_flow(&graph);
            assert_eq!(furthest, by_subsets(&graph));
            assert_eq!(graph.weight(&furthest), cover_by_unions(&graph));
            assert!(is_furthest(&graph, &furthest));
        }
    }

    #[test]
    fn the_flow_is_a_cover() {
        for graph in graphs() {
            let cover = smallest_cover(&graph);
            assert_eq!(no_cover(&cover, &graph), None);
            assert_eq!(cover.len(), graph.weight(&by_flow(&graph)));
        }
    }

    #[test]
    fn a_set_that_is_not_furthest_is_told() {
        let chain = |voices: [usize; 3]| Graph::new(voices.to_vec(), vec![(0, 1), (1, 2)]);
        assert!(!is_furthest(&chain([1, 1, 1]), &[0]) && !is_furthest(&chain([1, 1, 1]), &[1]));
        assert!(!is_furthest(&chain([2, 0, 2]), &[0]) && is_furthest(&chain([2, 0, 2]), &[2]));
        assert!(is_furthest(&chain([2, 1, 1]), &[0]) && is_furthest(&chain([0, 1, 0]), &[1]));
        assert!(is_furthest(&chain([0, 0, 0]), &[]));
    }
}
