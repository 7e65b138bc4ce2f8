//! Random words of runs: Philox4x64-10 (Salmon, Moraes, Dror and Shaw, 2011), a generator without a state of its own.
//!
//! Block B of run I of seed S is the cipher of the counter (B, I, 0, 0) under the key (S, use), use 0 for choosing words
//! and 1 for waiting draws. A block is four words; a word is four waiting draws, the lowest 16 bits first. So a run's
//! words depend on its seed and its number alone.

const MULTIPLIERS: [u64; 2] = [0xD2E7_470E_E14C_6C93, 0xCA5A_8263_9512_1157];
const WEYL: [u64; 2] = [0x9E37_79B9_7F4A_7C15, 0xBB67_AE85_84CA_A73B];
const ROUNDS: usize = 10;

type Block = [u64; 4];

fn cipher(mut counter: Block, mut key: [u64; 2]) -> Block {
    for _ in 0..ROUNDS {
        let [a, b, c, d] = counter;
        let first = u128::from(MULTIPLIERS[0]) * u128::from(a);
        let second = u128::from(MULTIPLIERS[1]) * u128::from(c);
        let high = |product: u128| (product >> 64) as u64;
        counter = [high(second) ^ b ^ key[0], second as u64, high(first) ^ d ^ key[1], first as u64];
        key = [key[0].wrapping_add(WEYL[0]), key[1].wrapping_add(WEYL[1])];
    }
    counter
}

/// A part of the words of a run, lent and used from the front.
struct Words<T> {
    key: [u64; 2],
    run: u64,
    block: u64,
    ready: Vec<T>,
    used: usize,
    split: fn(u64, &mut Vec<T>),
}

impl<T> Words<T> {
    fn new(key: [u64; 2], run: u64, split: fn(u64, &mut Vec<T>)) -> Words<T> {
        Words { key, run, block: 0, ready: Vec::new(), used: 0, split }
    }

    /// At least so many that are not used yet.
    fn lend(&mut self, least: usize) -> &[T] {
        if self.ready.len() - self.used < least {
            self.ready.drain(..self.used);
            self.used = 0;
            while self.ready.len() < 2 * least {
                for word in cipher([self.block, self.run, 0, 0], self.key) {
                    (self.split)(word, &mut self.ready);
                }
                self.block += 1;
            }
        }
        &self.ready[self.used..]
    }
}

/// What a run is lent: choosing words and waiting draws.
pub struct Draws {
    words: Words<u64>,
    waiting: Words<u16>,
}

impl Draws {
    pub fn of_run(seed: u64, run: u64) -> Draws {
        let quarters = |word: u64, draws: &mut Vec<u16>| draws.extend((0..4).map(|part| (word >> (16 * part)) as u16));
        let words = Words::new([seed, 0], run, |word, words| words.push(word));
        Draws { words, waiting: Words::new([seed, 1], run, quarters) }
    }

    pub fn lend(&mut self, words: usize, waiting: usize) -> (&[u64], &[u16]) {
        (self.words.lend(words), self.waiting.lend(waiting))
    }

    pub fn used(&mut self, words: u64, waiting: u64) {
        self.words.used += words as usize;
        self.waiting.used += waiting as usize;
    }
}

#[cfg(test)]
mod tests {
    use super::*;

    /// The known answers that come with the authors' Random123.
    #[test]
    fn known_answers() {
        let zeros = [0x16554d9eca36314c, 0xdb20fe9d672d0fdc, 0xd7e772cee186176b, 0x7e68b68aec7ba23b];
        assert_eq!(cipher([0; 4], [0; 2]), zeros);
        let ones = [0x87b092c3013fe90b, 0x438c3c67be8d0224, 0x9cc7d7c69cd777b6, 0xa09caebf594f0ba0];
        assert_eq!(cipher([u64::MAX; 4], [u64::MAX; 2]), ones);
        let digits = [0x243f6a8885a308d3, 0x13198a2e03707344, 0xa4093822299f31d0, 0x082efa98ec4e6c89];
        let of_pi = [0xa528f45403e61d95, 0x38c72dbd566e9788, 0xa5a1610e72fd18b5, 0x57bd43b5e52b7fe6];
        assert_eq!(cipher(digits, [0x452821e638d01377, 0xbe5466cf34e90c6c]), of_pi);
    }

    #[test]
    fn words_are_the_same_however_they_are_lent() {
        let mut at_once = Draws::of_run(7, 3);
        let (words, waiting) = at_once.lend(100, 100);
        let mut one_by_one = Draws::of_run(7, 3);
        for number in 0..100 {
            let (word, draw) = one_by_one.lend(1, 1);
            assert_eq!((word[0], draw[0]), (words[number], waiting[number]));
            one_by_one.used(1, 1);
        }
    }
}
