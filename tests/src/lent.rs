//! Lent buffers, of words or of bytes: a stretch of a larger allocation, with words or bytes in front of it and behind it that no
//! call may change.

use crate::random::Random;

/// How many words or bytes are watched on either side.
pub const WATCHED: usize = 16;
/// The longest stretch of words that is ever lent, and of bytes.
pub const LONGEST: usize = 24_000;
pub const LONGEST_BYTES: usize = 60_000;
const ROOM: usize = LONGEST + 3 * WATCHED;
const ROOM_BYTES: usize = LONGEST_BYTES + 3 * WATCHED;

/// What buffers are filled with. The first kind stands around them too.
pub struct Filling<T = u32>(Vec<Vec<T>>);

impl Filling {
    /// Random words, zeros, ones in every bit, small numbers, and words of the kinds of a report.
    pub fn new() -> Filling {
        let mut random = Random::new(2);
        let many: Vec<u32> = (0..2 * ROOM).map(|_| random.word()).collect();
        let small = (0..ROOM).map(|_| random.below(220) as u32).collect();
        let likely = (0..ROOM).map(|_| (random.between(4, 8) as u32) << 28 | random.below(220) as u32).collect();
        Filling(vec![many, vec![0; ROOM], vec![u32::MAX; ROOM], small, likely])
    }
}

impl Filling<u8> {
    /// Random bytes, zeros, ones in every bit, figures and spaces, and the lines of texts.
    pub fn of_bytes() -> Filling<u8> {
        let mut random = Random::new(3);
        let many: Vec<u8> = (0..2 * ROOM_BYTES).map(|_| random.word() as u8).collect();
        let figures = (0..ROOM_BYTES).map(|_| *random.pick(b"0123456789 \n")).collect();
        let mut lines = Vec::new();
        while lines.len() < ROOM_BYTES {
            let names = ["episodes", "links", "width", "apart", "thread", "loop", "refused"];
            lines.extend(format!("{} {}\n", random.pick(&names), random.below(220)).into_bytes());
        }
        Filling(vec![many, vec![0; ROOM_BYTES], vec![u8::MAX; ROOM_BYTES], figures, lines])
    }
}

impl<T> Filling<T> {
    fn stretch(&self, kind: usize, length: usize, random: &mut Random) -> &[T] {
        let from = &self.0[kind];
        let start = random.below(from.len() - length + 1);
        &from[start..start + length]
    }
}

/// What can be lent.
pub trait Unit: Copy + Default + PartialEq + std::fmt::UpperHex {
    const NAME: &'static str;
}

impl Unit for u32 {
    const NAME: &'static str = "word";
}

impl Unit for u8 {
    const NAME: &'static str = "byte";
}

/// What is lent, words where nothing else is said, and the same before the call.
pub struct Lent<T = u32> {
    now: Vec<T>,
    before: Vec<T>,
    start: usize,
    length: usize,
}

impl<T: Unit> Lent<T> {
    pub fn new() -> Lent<T> {
        Lent { now: vec![T::default(); 3 * WATCHED], before: Vec::new(), start: WATCHED, length: 0 }
    }

    /// These alone, lent to a call.
    pub fn of(given: &[T]) -> Lent<T> {
        let mut lent = Lent::new();
        lent.make_room(WATCHED, given.len());
        lent.lent_mut().copy_from_slice(given);
        lent.keep();
        lent
    }

    /// Lends so many, of any content.
    pub fn fill(&mut self, length: usize, filling: &Filling<T>, random: &mut Random) {
        self.place(length, filling, random);
        let kind = random.weighted(&[(0, 8), (1, 1), (2, 1), (3, 2), (4, 2)]);
        let lent = self.start..self.start + length;
        self.now[lent].copy_from_slice(filling.stretch(kind, length, random));
        self.keep();
    }

    /// Lends these.
    pub fn set(&mut self, given: &[T], filling: &Filling<T>, random: &mut Random) {
        self.place(given.len(), filling, random);
        self.lent_mut().copy_from_slice(given);
        self.keep();
    }

    fn place(&mut self, length: usize, filling: &Filling<T>, random: &mut Random) {
        self.make_room(WATCHED + random.below(WATCHED), length);
        let (front, behind) = (self.start - WATCHED, self.start + length);
        self.now[front..self.start].copy_from_slice(filling.stretch(0, WATCHED, random));
        self.now[behind..behind + WATCHED].copy_from_slice(filling.stretch(0, WATCHED, random));
    }

    fn make_room(&mut self, start: usize, length: usize) {
        (self.start, self.length) = (start, length);
        let room = start + length + WATCHED;
        if self.now.len() < room {
            self.now.resize(room, T::default());
        }
    }

    fn keep(&mut self) {
        self.before.clear();
        self.before.extend_from_slice(&self.now[self.start - WATCHED..self.start + self.length + WATCHED]);
    }

    pub fn len(&self) -> usize {
        self.length
    }

    pub fn lent(&self) -> &[T] {
        &self.now[self.start..self.start + self.length]
    }

    pub fn lent_mut(&mut self) -> &mut [T] {
        &mut self.now[self.start..self.start + self.length]
    }

    /// What is lent as it was before the call.
    pub fn before(&self) -> &[T] {
        &self.before[WATCHED..WATCHED + self.length]
    }

    /// Whether what is lent is as it was.
    pub fn kept(&self) -> bool {
        self.lent() == self.before()
    }

    /// Whether what stands in front of it and behind it is as it was.
    pub fn outside_kept(&self) -> bool {
        let (now, before, behind) = (self.with_outside(), &self.before, WATCHED + self.length);
        now[..WATCHED] == before[..WATCHED] && now[behind..] == before[behind..]
    }

    /// What is lent with what stands in front and behind.
    pub fn with_outside(&self) -> &[T] {
        &self.now[self.start - WATCHED..self.start + self.length + WATCHED]
    }

    /// The same, for faults that change them.
    pub fn with_outside_mut(&mut self) -> &mut [T] {
        &mut self.now[self.start - WATCHED..self.start + self.length + WATCHED]
    }
}
