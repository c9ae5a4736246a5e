//! A small seeded generator of random numbers: xoshiro256**, its state filled by splitmix64.

/// Random numbers; equal seeds give equal sequences.
#[derive(Clone, Debug)]
pub struct Random {
    state: [u64; 4],
}

impl Random {
    pub fn new(seed: u64) -> Random {
        let mut at = seed;
        let state = std::array::from_fn(|_| splitmix64(&mut at));
        Random { state }
    }

    /// The generator of input `index` under a seed, independent of all other inputs.
    pub fn at(seed: u64, index: u64) -> Random {
        let mut at = seed;
        let mixed = splitmix64(&mut at);
        Random::new(mixed ^ index.wrapping_mul(0x9e37_79b9_7f4a_7c15))
    }

    /// 64 random bits.
    pub fn bits(&mut self) -> u64 {
        let [a, b, c, d] = &mut self.state;
        let answer = b.wrapping_mul(5).rotate_left(7).wrapping_mul(9);
        let shifted = *b << 17;
        *c ^= *a;
        *d ^= *b;
        *b ^= *c;
        *a ^= *d;
        *c ^= shifted;
        *d = d.rotate_left(45);
        answer
    }

    /// A number below `bound`, which is not 0.
    pub fn below(&mut self, bound: usize) -> usize {
        ((u128::from(self.bits()) * bound as u128) >> 64) as usize
    }

    /// A number from `least` to `most`, both included.
    pub fn range(&mut self, least: usize, most: usize) -> usize {
        least + self.below(most - least + 1)
    }

    /// The same for words.
    pub fn word(&mut self, least: u16, most: u16) -> u16 {
        self.range(usize::from(least), usize::from(most)) as u16
    }

    /// True in `parts` of `whole` draws.
    pub fn chance(&mut self, parts: usize, whole: usize) -> bool {
        self.below(whole) < parts
    }

    /// One member of a list that is not empty.
    pub fn pick<T: Copy>(&mut self, list: &[T]) -> T {
        list[self.below(list.len())]
    }
}

fn splitmix64(at: &mut u64) -> u64 {
    *at = at.wrapping_add(0x9e37_79b9_7f4a_7c15);
    let mut z = *at;
    z = (z ^ (z >> 30)).wrapping_mul(0xbf58_476d_1ce4_e5b9);
    z = (z ^ (z >> 27)).wrapping_mul(0x94d0_49bb_1331_11eb);
    z ^ (z >> 31)
}

#[cfg(test)]
mod tests {
    use super::*;

    #[test]
    fn equal_seeds_give_equal_numbers_in_range() {
        let (mut one, mut other) = (Random::at(7, 3), Random::at(7, 3));
        let mut seen = [false; 5];
        for _ in 0..1_000 {
            let number = one.range(10, 14);
            assert_eq!(number, other.range(10, 14));
            seen[number - 10] = true;
        }
        assert_eq!(seen, [true; 5]);
        assert_ne!(Random::at(7, 3).bits(), Random::at(7, 4).bits());
    }
}
