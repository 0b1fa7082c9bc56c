//! The links that stay in the trimmed copy of a graph without loops, by two roads:
//! - `by_search`: each link is taken out alone, and a search over lists of links asks whether its ends are still joined;
//! - `by_threads`: all threads are gone along, and a link stays if it is the only one between its ends.

use super::graph::Graph;
use crate::words::Link;

/// The links that stay, rising: those without which their ends are not joined.
pub fn by_search(graph: &Graph) -> Vec<Link> {
    graph.links.iter().copied().filter(|&link| !joined_without(graph, link)).collect()
}

/// Whether other links lead from the first episode of `out` to its second. The graph has each link once, so `out` is
/// taken out with all its repeats.
pub fn joined_without(graph: &Graph, out: Link) -> bool {
    joined_past(graph, vec![false; graph.n], out)
}

/// The same, past the episodes that are `seen`.
pub fn joined_past(graph: &Graph, mut seen: Vec<bool>, out: Link) -> bool {
    let mut stack = vec![out.0];
    while let Some(at) = stack.pop() {
        for &to in graph.next[at].iter().filter(|&&to| (at, to) != out) {
            if to == out.1 {
                return true;
            }
            if !seen[to] {
                seen[to] = true;
                stack.push(to);
            }
        }
    }
    false
}

/// The same links: those that are the only thread from their first episode to their second. At most 16 episodes.
pub fn by_threads(graph: &Graph) -> Vec<Link> {
    fn go(graph: &Graph, at: usize, ending: &mut [usize]) {
        for &to in &graph.next[at] {
            ending[to] += 1;
            go(graph, to, ending);
        }
    }
    let threads_from = |v: usize| {
        let mut ending = vec![0; graph.n];
        go(graph, v, &mut ending);
        ending
    };
    let threads: Vec<Vec<usize>> = (0..graph.n).map(threads_from).collect();
    graph.links.iter().copied().filter(|&(from, to)| threads[from][to] == 1).collect()
}
