//! Random numbers of this program's own, by a seed.

use std::cell::Cell;

pub struct Random {
    state: Cell<u64>,
}

impl Random {
    pub fn new(seed: u64) -> Random {
        Random { state: Cell::new(seed) }
    }

    /// The numbers of one case of one part: they depend on nothing else.
    pub fn of_case(seed: u64, part: &str, case: u64) -> Random {
        let random = Random::new(seed);
        for word in part.bytes().map(u64::from).chain([case]) {
            random.state.set(random.next() ^ word);
        }
        random
    }

    pub fn next(&self) -> u64 {
        let mut z = self.state.get().wrapping_add(0x9E37_79B9_7F4A_7C15);
        self.state.set(z);
        z = (z ^ (z >> 30)).wrapping_mul(0xBF58_476D_1CE4_E5B9);
        z = (z ^ (z >> 27)).wrapping_mul(0x94D0_49BB_1331_11EB);
        z ^ (z >> 31)
    }

    pub fn bits(&self) -> u32 {
        (self.next() >> 32) as u32
    }

    /// From 0 to `top`, `top` included.
    pub fn up_to(&self, top: u64) -> u64 {
        match top.checked_add(1) {
            Some(count) => self.next() % count,
            None => self.next(),
        }
    }

    pub fn between(&self, least: i64, most: i64) -> i64 {
        least + self.up_to((most - least) as u64) as i64
    }

    pub fn index(&self, count: usize) -> usize {
        self.up_to(count as u64 - 1) as usize
    }

    pub fn pick<T: Copy>(&self, from: &[T]) -> T {
        from[self.index(from.len())]
    }

    /// True so many times of a hundred.
    pub fn percent(&self, times: u64) -> bool {
        self.up_to(99) < times
    }

    /// A number up to `top` of a random count of binary digits, so that small ones are as frequent as great ones.
    pub fn of_any_size(&self, top: u64) -> u64 {
        let digits = self.up_to(u64::from(64 - top.leading_zeros()));
        let number = if digits == 0 { 0 } else { self.next() >> (64 - digits) };
        number.min(top)
    }
}
