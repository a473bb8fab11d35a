//! A random generator of our own (splitmix64), so that a journal depends on
//! its seed and its number alone.

const STEP: u64 = 0x9e37_79b9_7f4a_7c15;

pub struct Random {
    state: u64,
}

impl Random {
    /// The generator of one journal. Neighbouring numbers are scrambled, so
    /// that they have nothing in common.
    pub fn new(seed: u64, number: u64) -> Self {
        let seed = scramble(seed.wrapping_add(STEP));
        let number = scramble(number.wrapping_mul(STEP).wrapping_add(1));
        Random {
            state: scramble(seed ^ number.rotate_left(23)),
        }
    }

    pub fn draw(&mut self) -> u64 {
        self.state = self.state.wrapping_add(STEP);
        scramble(self.state)
    }

    /// A number from 0 to `end` - 1; `end` is at least 1.
    pub fn below(&mut self, end: u32) -> u32 {
        let wide = u64::from(end) * (self.draw() >> 32);
        u32::try_from(wide >> 32).unwrap_or(0)
    }

    /// A number from `low` to `high`, both included.
    pub fn between(&mut self, low: u32, high: u32) -> u32 {
        low + self.below(high - low + 1)
    }

    /// A small number for a count, a month or a day.
    pub fn byte_between(&mut self, low: u8, high: u8) -> u8 {
        low + self.below(u32::from(high - low) + 1) as u8
    }

    pub fn short_between(&mut self, low: u16, high: u16) -> u16 {
        low + self.below(u32::from(high - low) + 1) as u16
    }

    /// A place in a run of `end` things; `end` is at least 1.
    pub fn place(&mut self, end: usize) -> usize {
        self.below(end as u32) as usize
    }

    pub fn byte(&mut self) -> u8 {
        (self.draw() >> 56) as u8
    }

    pub fn chance(&mut self, percent: u32) -> bool {
        self.below(100) < percent
    }

    pub fn pick<T: Copy>(&mut self, of: &[T]) -> T {
        of[self.place(of.len())]
    }

    pub fn shuffle<T>(&mut self, things: &mut [T]) {
        for end in (2..=things.len()).rev() {
            let other = self.place(end);
            things.swap(end - 1, other);
        }
    }
}

fn scramble(mut z: u64) -> u64 {
    z = (z ^ (z >> 30)).wrapping_mul(0xbf58_476d_1ce4_e5b9);
    z = (z ^ (z >> 27)).wrapping_mul(0x94d0_49bb_1331_11eb);
    z ^ (z >> 31)
}

#[cfg(test)]
mod tests {
    use super::*;

    #[test]
    fn the_same_seed_and_number_draw_the_same() {
        let mut one = Random::new(3, 8);
        let mut two = Random::new(3, 8);
        let mut other = Random::new(3, 9);
        for _ in 0..100 {
            let drawn = one.draw();
            assert_eq!(drawn, two.draw());
            assert_ne!(drawn, other.draw());
        }
    }

    #[test]
    fn draws_keep_their_bounds_and_meet_them() {
        let mut random = Random::new(1, 1);
        let drawn: Vec<u32> = (0..1_000).map(|_| random.between(5, 9)).collect();
        assert_eq!(drawn.iter().min(), Some(&5));
        assert_eq!(drawn.iter().max(), Some(&9));
    }
}
