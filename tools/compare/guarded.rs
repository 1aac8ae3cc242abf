//! Buffers lent as the middle of larger ones, all filled with random words.

/// A sequence that seems random, the same for the same seed.
pub struct Random(pub u64);

impl Random {
    pub fn next(&mut self) -> u64 {
        self.0 = self.0.wrapping_add(0x9e37_79b9_7f4a_7c15);
        let mut word = self.0;
        word = (word ^ (word >> 30)).wrapping_mul(0xbf58_476d_1ce4_e5b9);
        word = (word ^ (word >> 27)).wrapping_mul(0x94d0_49bb_1331_11eb);
        word ^ (word >> 31)
    }

    /// A number from 0 to `end` - 1.
    pub fn below(&mut self, end: usize) -> usize {
        (self.next() % end as u64) as usize
    }

    pub fn one_in(&mut self, parts: usize) -> bool {
        self.below(parts) == 0
    }

    pub fn pick<T: Copy>(&mut self, choices: &[T]) -> T {
        choices[self.below(choices.len())]
    }
}

/// The words before and behind a lent buffer.
const GUARD: usize = 16;

pub struct Guarded<T> {
    words: Vec<T>,
    before: Vec<T>,
}

impl<T: Copy + PartialEq> Guarded<T> {
    /// A buffer of random words.
    pub fn random(length: usize, random: &mut Random, word: impl Fn(u64) -> T) -> Self {
        let words: Vec<T> = (0..length + 2 * GUARD)
            .map(|_| word(random.next()))
            .collect();
        Guarded {
            before: words.clone(),
            words,
        }
    }

    /// A buffer that holds these words.
    pub fn of(content: &[T], random: &mut Random, word: impl Fn(u64) -> T) -> Self {
        let mut buffer = Self::random(content.len(), random, word);
        buffer.lent().copy_from_slice(content);
        buffer.before.clone_from(&buffer.words);
        buffer
    }

    pub fn lent(&mut self) -> &mut [T] {
        let end = self.words.len() - GUARD;
        &mut self.words[GUARD..end]
    }

    pub fn now(&self) -> &[T] {
        &self.words[GUARD..self.words.len() - GUARD]
    }

    pub fn same(&self) -> bool {
        self.words == self.before
    }

    /// Whether the words from this place of the lent ones on, and all around them, are as before.
    pub fn same_from(&self, at: usize) -> bool {
        self.words[..GUARD] == self.before[..GUARD]
            && self.words[GUARD + at..] == self.before[GUARD + at..]
    }

    /// Whether all around the lent words is as before.
    pub fn same_around(&self) -> bool {
        self.same_from(self.now().len())
    }
}
