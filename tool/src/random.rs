//! Numbers and logs for the tests: the same ones in each run.

use zohapy::{LOG_BYTES, Link, MOST_WITH_VOICES, Mark, bytes_from_words, head_word, to_word, voices_word};

/// The refusals for which logs are damaged.
const DAMAGES: [u32; 16] = [1, 2, 3, 4, 5, 6, 7, 8, 9, 10, 14, 15, 18, 19, 20, 21];

pub struct Random(u64);

impl Random {
    pub fn new() -> Random {
        Random(0x9E37_79B9_7F4A_7C15)
    }

    /// A number below `ceiling`.
    pub fn below(&mut self, ceiling: u32) -> u32 {
        self.0 ^= self.0 << 13;
        self.0 ^= self.0 >> 7;
        self.0 ^= self.0 << 17;
        ((self.0 >> 32) % u64::from(ceiling)) as u32
    }

    /// A link of two of the episodes, with a pause below `ceiling`.
    pub fn link(&mut self, episodes: u32, ceiling: u32) -> Link {
        Link { from: self.below(episodes), to: self.below(episodes), pause: self.below(ceiling) }
    }

    /// Marks of some of the episodes, in any order; none where there are too many episodes for marks.
    pub fn marks(&mut self, episodes: u32) -> Vec<Mark> {
        if episodes as usize > MOST_WITH_VOICES {
            return Vec::new();
        }
        let mut marks: Vec<Mark> = (0..episodes).map(|episode| Mark { episode, voices: self.below(3) }).collect();
        (0..marks.len()).for_each(|i| marks.swap(i, self.below(episodes) as usize));
        marks.truncate(self.below(episodes + 1) as usize);
        marks
    }

    /// The bytes of a log of either version, with marks and pauses or without them. Most have a report, some a loop, and one in three
    /// is damaged.
    pub fn log(&mut self) -> Vec<u8> {
        let mut words = self.sound();
        if self.below(3) > 0 {
            return bytes_from_words(&words);
        }
        let damage = DAMAGES[self.below(DAMAGES.len() as u32) as usize];
        self.damage(damage, &mut words);
        let mut bytes = bytes_from_words(&words);
        match damage {
            14 => bytes.resize(LOG_BYTES + 1 + self.below(5) as usize, 0),
            15 => bytes.extend((0..=self.below(3)).map(|byte| byte as u8)),
            _ => {}
        }
        bytes
    }

    /// The words of a log that passes questions 1 to 10 and 18 to 21.
    fn sound(&mut self) -> Vec<u32> {
        let episodes = [0, 1, 2, 5, 12, 60, 120, 200][self.below(8) as usize];
        let mut words = vec![head_word(self.below(2), episodes).expect("a head has room")];
        if self.below(2) == 0 {
            let marks = self.marks(episodes);
            words.extend(marks.iter().map(|mark| voices_word(mark.episode, mark.voices).expect("a voices word has room")));
        }
        let links = if episodes == 0 { 0 } else { self.below(3 * episodes) };
        let (pauses, loops) = ([1, 100, 720, 4096][self.below(4) as usize], self.below(4) == 0);
        let mut given = 0;
        for _ in 0..links {
            let link = self.link(episodes, pauses);
            if loops || link.from < link.to {
                words.extend([0x2000_0000 | link.from, to_word(link.to, link.pause).expect("a to word has room")]);
                given += 1;
            }
        }
        words.push(0xF000_0000 | given);
        words
    }

    /// Damages a log so that it is refused by this number, unless by an earlier question.
    fn damage(&mut self, refusal: u32, words: &mut Vec<u32>) {
        let episodes = words[0] & 0xFF_FFFF;
        let last = words.len() - 1;
        let place = 1 + self.below(last as u32) as usize;
        let version = words[0] & 0x0F00_0000;
        match refusal {
            1 => words.truncate(self.below(2) as usize),
            2 => words[0] = words[0] & 0x0FFF_FFFF | (2 + self.below(14)) << 28,
            3 => words[0] = 0x1000_0000 | version | (201 + self.below(1000)),
            4 => words.insert(place, [0, 1, 4, 9, 15][self.below(5) as usize] << 28 | self.below(300)),
            5 => words.insert(1, 0x3000_0000),
            6 => words.insert(last, 0x2000_0000),
            7 => words.splice(last..last, [0x2000_0000, 0x3000_0000 | (episodes + self.below(9))]).for_each(drop),
            8 => words.splice(last..last, std::iter::once(0x2000_0000).chain(vec![0x3000_0000; 4097])).for_each(drop),
            9 => words[last] = words[last] & 0x0FFF_FFFF | self.below(15) << 28,
            10 => words[last] = 0xF000_0000 | self.below(5000),
            18 => words[0] = 0x1000_0000 | (2 + self.below(14)) << 24 | episodes,
            19 => words.insert(1, 0x9003_0000 | self.below(100) << 16),
            20 => words.splice(0..1, [0x1000_0000 | version | (121 + self.below(80)), 0x9001_0000]).for_each(drop),
            21 => words.splice(1..1, [0x9001_0000, 0x9000_0000 | self.below(3) << 16]).for_each(drop),
            _ => {}
        }
    }
}
