//! The logs that are measured, the same in every run. They are of version 0 and have no pauses and no voices words where nothing
//! else is said.

use zohapy::{MOST_VOICES, MOST_WITH_VOICES, kind};

pub type Links = Vec<(usize, usize)>;

/// Episodes, each with its voices.
pub type Marks = Vec<(usize, u32)>;

/// The most episodes and the most to words of a log.
pub const EPISODES: usize = 200;
pub const WORDS: usize = 4096;

/// A log of full size: 200 episodes, or 120 where it has voices words.
pub struct Shape {
    /// The word by which a command names it.
    pub key: &'static str,
    pub name: &'static str,
    pub log: Vec<u32>,
}

/// Numbers from a seed, by xorshift.
pub struct Numbers(u64);

impl Numbers {
    pub fn from_seed(seed: u64) -> Self {
        Numbers(seed.wrapping_mul(0x9E37_79B9_7F4A_7C15) | 1)
    }

    /// A number below `k`.
    pub fn below(&mut self, k: usize) -> usize {
        self.0 ^= self.0 << 13;
        self.0 ^= self.0 >> 7;
        self.0 ^= self.0 << 17;
        (self.0 >> 11) as usize % k
    }

    /// The numbers below `k`, each once.
    fn order(&mut self, k: usize) -> Vec<usize> {
        let mut order: Vec<usize> = (0..k).collect();
        for i in (1..k).rev() {
            order.swap(i, self.below(i + 1));
        }
        order
    }
}

/// A log with a group for each link, the longest form that it has.
pub fn log_of(n: usize, links: &[(usize, usize)]) -> Vec<u32> {
    let groups = links.iter().flat_map(|&(a, b)| [0x2000_0000 + a as u32, 0x3000_0000 + b as u32]);
    let end = 0xF000_0000 + links.len() as u32;
    std::iter::once(0x1000_0000 + n as u32).chain(groups).chain([end]).collect()
}

/// A log with a group for each `size` links of an episode, and for those that are left.
fn log_in_groups(n: usize, size: usize, links: &[(usize, usize)]) -> Vec<u32> {
    let mut sorted = links.to_vec();
    sorted.sort_by_key(|link| link.0);
    let mut log = vec![0x1000_0000 + n as u32];
    for group in sorted.chunk_by(|one, next| one.0 == next.0).flat_map(|links| links.chunks(size)) {
        log.push(0x2000_0000 + group[0].0 as u32);
        log.extend(group.iter().map(|link| 0x3000_0000 + link.1 as u32));
    }
    log.push(0xF000_0000 + links.len() as u32);
    log
}

/// A log in version 1, with random pauses of 0 to 720 minutes: half of them are too long to count.
pub fn half_long(seed: u64, log: &[u32]) -> Vec<u32> {
    let mut numbers = Numbers::from_seed(seed);
    let of_version_1 = |&word: &u32| match kind(word) {
        1 => word | 1 << 24,
        3 => word | (numbers.below(721) as u32) << 16,
        _ => word,
    };
    log.iter().map(of_version_1).collect()
}

/// The same log with a voices word for each mark, in their order.
pub fn marked(marks: &[(usize, u32)], log: &[u32]) -> Vec<u32> {
    let words = marks.iter().map(|&(v, voices)| 0x9000_0000 | voices << 16 | v as u32);
    log[..1].iter().copied().chain(words).chain(log[1..].iter().copied()).collect()
}

/// Each of `n` episodes is a duet.
fn duets(n: usize) -> Marks {
    (0..n).map(|v| (v, MOST_VOICES)).collect()
}

/// Of `n` episodes about a third are duets and a twelfth doors, and a twelfth has a voices word that says 1. They come in no order.
pub fn random_marks(seed: u64, n: usize) -> Marks {
    let mut numbers = Numbers::from_seed(seed);
    let order = numbers.order(n);
    order.into_iter().filter_map(|v| Some((v, *[2, 2, 2, 2, 0, 1].get(numbers.below(12))?))).collect()
}

/// `count` random links from a lower number to one that is higher by at most `reach`. A link may come again.
pub fn random(seed: u64, n: usize, reach: usize, count: usize) -> Links {
    let mut numbers = Numbers::from_seed(seed);
    let mut links = vec![];
    while links.len() < count {
        let a = numbers.below(n);
        let b = a + 1 + numbers.below(reach);
        if b < n {
            links.push((a, b));
        }
    }
    links
}

/// One chain, rising.
fn chain(n: usize) -> Links {
    (0..n - 1).map(|a| (a, a + 1)).collect()
}

/// `layers` layers, with random links from each to the next.
fn layered(seed: u64, n: usize, layers: usize) -> Links {
    let mut numbers = Numbers::from_seed(seed);
    let size = n / layers;
    let link = |_| {
        let first = size * numbers.below(layers - 1);
        (first + numbers.below(size), first + size + numbers.below(size))
    };
    (0..WORDS).map(link).collect()
}

/// The first `size` of `n` episodes with `size` links, one fewer, and so on down to 1, to the first of the last `size`. Those with
/// many links come first, and take what those with few links need.
fn half_graph(n: usize, size: usize) -> Links {
    (0..size).flat_map(|i| (0..size - i).map(move |j| (i, n - size + j))).collect()
}

/// Of `n` episodes, a multiple of 4, nearly a quarter have ways to a half and take the first quarter of it, to which alone nearly a
/// quarter more have ways.
fn wrong_first_choices(n: usize) -> Links {
    let (quarter, half) = (n / 4, n / 2);
    let first = (0..quarter - 1).flat_map(|a| [(a, half - 2), (a, half - 1)]);
    let second = (quarter - 1..half - 2).map(|a| (a, half - 2));
    let others = (0..quarter).flat_map(|i| [(half - 2, half + i), (half - 1, half + quarter + i)]);
    first.chain(second).chain(others).collect()
}

/// A night of nine sleepers. An episode is heard near its sleeper's place, and linked to the later ones heard near there.
/// Of these links the log has those that pass over the fewest episodes.
fn night(n: usize) -> Links {
    let mut numbers = Numbers::from_seed(9);
    let heard: Vec<usize> = (0..n).map(|_| 100 * numbers.below(9) + numbers.below(61)).collect();
    let mut links: Links = (0..n).flat_map(|a| (a + 1..n).map(move |b| (a, b))).collect();
    links.retain(|&(a, b)| heard[a].abs_diff(heard[b]) <= 105);
    links.sort_by_key(|&(a, b)| b - a);
    links.truncate(WORDS);
    links
}

/// The same links with the `n` episodes numbered from the other end.
fn turned(n: usize, links: Links) -> Links {
    links.into_iter().map(|(a, b)| (n - 1 - a, n - 1 - b)).collect()
}

/// The same links with the `n` episodes numbered at random.
fn shuffled(seed: u64, n: usize, links: Links) -> Links {
    let new = Numbers::from_seed(seed).order(n);
    links.into_iter().map(|(a, b)| (new[a], new[b])).collect()
}

/// 256 times 16 random links from one episode to higher numbers. A link may come again.
fn sixteens(seed: u64) -> Links {
    let mut numbers = Numbers::from_seed(seed);
    let earlier = random(seed, EPISODES, EPISODES, WORDS / 16).into_iter().flat_map(|(a, _)| [a; 16]);
    earlier.map(|a| (a, a + 1 + numbers.below(EPISODES - 1 - a))).collect()
}

/// The first 4,096 links to higher numbers. So many different ones without a loop stand in no fewer groups.
fn first_links() -> Links {
    (0..EPISODES).flat_map(|a| (a + 1..EPISODES).map(move |b| (a, b))).take(WORDS).collect()
}

/// 4,096 random links, rising.
fn dense(n: usize) -> Links {
    random(2, n, n, WORDS)
}

/// 4,096 of the links, which are given again and again; none where there are none.
fn again(links: Links) -> Links {
    links.iter().copied().cycle().take(WORDS).collect()
}

/// Keys, names and links, of which there are 4,096 or none: shorter lists are given again and again.
fn linked() -> Vec<(&'static str, &'static str, Links)> {
    let n = EPISODES;
    let shapes = vec![
        ("none", "no links", vec![]),
        ("chain", "one chain, rising", chain(n)),
        ("chain-falling", "one chain, falling", turned(n, chain(n))),
        ("sparse", "400 random links, rising", random(1, n, n, 400)),
        ("dense", "4,096 random links, rising", dense(n)),
        ("dense-falling", "4,096 random links, falling", turned(n, dense(n))),
        ("dense-shuffled", "4,096 random links, numbered at random", shuffled(3, n, dense(n))),
        ("two-layers", "two layers of 100, rising", layered(4, n, 2)),
        ("two-layers-falling", "two layers of 100, falling", turned(n, layered(4, n, 2))),
        ("ten-layers", "ten layers of 20, rising", layered(5, n, 10)),
        ("half-graph", "half graph", half_graph(n, 90)),
        ("wrong-choices", "wrong first choices", wrong_first_choices(n)),
        ("many-shrinks", "many shrinks", turned(n, random(926_366, n, 27, 1293))),
        ("long-searches", "long searches", shuffled(7, n, random(139_996, n, 176, 1898))),
    ];
    shapes.into_iter().map(|(key, name, links)| (key, name, again(links))).collect()
}

/// Logs of 200 episodes, with 4,096 to words where there are links at all. The last two are of version 1.
pub fn all() -> Vec<Shape> {
    let shape = |(key, name, links): (_, _, Links)| Shape { key, name, log: log_of(EPISODES, &links) };
    let mut shapes: Vec<Shape> = linked().into_iter().map(shape).collect();
    let night = log_in_groups(EPISODES, WORDS, &night(EPISODES));
    let [dense_long, night_long] = [half_long(10, &log_of(EPISODES, &dense(EPISODES))), half_long(11, &night)];
    shapes.extend([
        Shape { key: "night", name: "a night of nine sleepers", log: night },
        Shape { key: "dense-long", name: "4,096 random links, rising, version 1", log: dense_long },
        Shape { key: "night-long", name: "a night of nine sleepers, version 1", log: night_long },
    ]);
    shapes
}

/// Keys, names and links of logs in which each of 120 episodes is a duet, as [`linked`] has them without voices words.
fn linked_duets() -> Vec<(&'static str, &'static str, Links)> {
    let n = MOST_WITH_VOICES;
    let sparse = || random(1, n, n, 240);
    vec![
        ("duets-none", "no links", vec![]),
        ("duets-chain", "one chain, rising", chain(n)),
        ("duets-chain-falling", "one chain, falling", turned(n, chain(n))),
        ("duets-sparse", "240 random links, rising", sparse()),
        ("duets-sparse-shuffled", "240 random links, numbered at random", shuffled(3, n, sparse())),
        ("duets-dense", "4,096 random links, rising", dense(n)),
        ("duets-dense-falling", "4,096 random links, falling", turned(n, dense(n))),
        ("duets-dense-shuffled", "4,096 random links, numbered at random", shuffled(3, n, dense(n))),
        ("duets-two-layers", "two layers of 60, rising", layered(4, n, 2)),
        ("duets-two-layers-falling", "two layers of 60, falling", turned(n, layered(4, n, 2))),
        ("duets-ten-layers", "ten layers of 12, rising", layered(5, n, 10)),
        ("duets-half-graph", "half graph", half_graph(n, 54)),
        ("duets-wrong-choices", "wrong first choices", wrong_first_choices(n)),
    ]
}

/// Logs of 120 episodes with voices words, and with 4,096 to words where there are links at all. In the last three some episodes
/// are duets and some doors; the last one is of version 1.
pub fn with_voices() -> Vec<Shape> {
    let n = MOST_WITH_VOICES;
    let shape = |(key, name, links)| Shape { key, name, log: marked(&duets(n), &log_of(n, &again(links))) };
    let mut shapes: Vec<Shape> = linked_duets().into_iter().map(shape).collect();
    let some = random_marks(13, n);
    let night = marked(&some, &log_in_groups(n, WORDS, &again(night(n))));
    let night_long = half_long(11, &night);
    shapes.extend([
        Shape {
            key: "some-dense",
            name: "4,096 random links, rising, duets and doors",
            log: marked(&some, &log_of(n, &dense(n))),
        },
        Shape { key: "some-night", name: "a night of nine sleepers, duets and doors", log: night },
        Shape { key: "some-night-long", name: "a night of nine sleepers, duets and doors, version 1", log: night_long },
    ]);
    shapes
}

/// Keys and logs with 4,096 to words, in groups of several lengths. The first three have the same links in the same order; the
/// others have a group for each episode. The last two are of version 1.
pub fn in_groups() -> Vec<(&'static str, Vec<u32>)> {
    let links = sixteens(6);
    let log = |size, links: &[_]| log_in_groups(EPISODES, size, links);
    let mut logs = vec![
        ("by-episode", log(WORDS, &links)),
        ("by-16", log(16, &links)),
        ("by-1", log(1, &links)),
        ("first-links", log(WORDS, &first_links())),
    ];
    let keys = ["chain", "dense", "dense-falling", "two-layers", "ten-layers", "wrong-choices"];
    let chosen = linked().into_iter().filter(|(key, ..)| keys.contains(key));
    logs.extend(chosen.map(|(key, _, links)| (key, log(WORDS, &links))));
    logs.push(("by-1-long", half_long(12, &log(1, &links))));
    logs.push(("dense-long", half_long(10, &log(WORDS, &dense(EPISODES)))));
    logs
}

/// Keys and logs for a build beside an older one: those in groups, then the shapes, of which those with voices words come last.
pub fn for_builds() -> Vec<(String, Vec<u32>)> {
    let shapes = all().into_iter().chain(with_voices()).map(|shape| (format!("shape-{}", shape.key), shape.log));
    in_groups().into_iter().map(|(key, log)| (key.into(), log)).chain(shapes).collect()
}

#[cfg(test)]
mod tests {
    use super::*;

    /// How many groups a log has, and its links.
    fn taken_apart(log: &[u32]) -> (usize, Links) {
        let groups = log.iter().filter(|&&word| zohapy::kind(word) == 2).count();
        let links = zohapy::links(log).expect("the log passes");
        (groups, links.iter().map(|link| (link.from as usize, link.to as usize)).collect())
    }

    fn log(key: &str) -> Vec<u32> {
        in_groups().into_iter().find(|log| log.0 == key).expect("it is one of the logs").1
    }

    #[test]
    fn groups_are_as_long_as_said() {
        let (groups, links) = taken_apart(&log("by-episode"));
        assert_eq!(groups, links.chunk_by(|one, next| one.0 == next.0).count());
        assert_eq!(taken_apart(&log("by-16")), (256, links.clone()));
        assert_eq!(taken_apart(&log("by-1")), (4096, links));
        assert_eq!(taken_apart(&log("first-links")), (22, first_links()));
    }

    #[test]
    fn half_of_the_pauses_are_long() {
        let plain = log("by-1");
        let long = log("by-1-long");
        assert_eq!(taken_apart(&long), taken_apart(&plain));
        assert_eq!((zohapy::head_version(plain[0]), zohapy::head_version(long[0])), (0, 1));
        let pauses: Vec<u32> = zohapy::links(&long).expect("the log passes").iter().map(|link| link.pause).collect();
        let too_long = pauses.iter().filter(|pause| **pause > zohapy::LONGEST_PAUSE).count();
        assert!(too_long.abs_diff(WORDS / 2) < WORDS / 20, "{too_long}");
        assert!(pauses.contains(&0) && pauses.contains(&360) && pauses.contains(&361) && pauses.iter().max() == Some(&720));
        let [counted, all] = [&long, &plain].map(|log| zohapy::link_count(log).expect("the log passes"));
        assert!(0 < counted && counted < all);
    }

    #[test]
    fn each_log_is_full_and_has_no_loop() {
        for (key, log) in for_builds() {
            let episodes = if kind(log[1]) == 9 { MOST_WITH_VOICES } else { EPISODES };
            let links = if key.ends_with("-none") { 0 } else { WORDS };
            assert_eq!(zohapy::read(&log), Ok(zohapy::Reading { episodes, links }), "{key}");
            assert!(zohapy::Report::of(&log).is_ok(), "{key}");
        }
    }

    #[test]
    fn marks_are_as_said() {
        for shape in with_voices() {
            let marks = zohapy::marks(&shape.log).expect("the log passes");
            let count = |voices| marks.iter().filter(|mark| mark.voices == voices).count();
            let counts = [0, 1, 2].map(count);
            if shape.key.starts_with("duets") {
                assert_eq!(counts, [0, 0, MOST_WITH_VOICES], "{}", shape.key);
            } else {
                assert!(counts[0] >= 5 && counts[1] >= 5 && counts[2].abs_diff(MOST_WITH_VOICES / 3) < 10, "{counts:?}");
                assert!(!marks.is_sorted(), "{}", shape.key);
            }
        }
        assert!(all().iter().all(|shape| zohapy::marks(&shape.log) == Ok(vec![])));
    }

    #[test]
    fn without_links_the_width_is_that_of_the_voices() {
        let width = |key: &str| {
            let shape = with_voices().into_iter().find(|shape| shape.key == key).expect("it is one of the shapes");
            zohapy::Report::of(&shape.log).expect("the log has a report").width
        };
        assert_eq!(width("duets-none"), 240);
        assert_eq!(width("duets-chain"), 2);
        assert_eq!(width("duets-two-layers"), 120);
    }
}
