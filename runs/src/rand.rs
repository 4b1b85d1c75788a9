//! The runs' own small generator, xorshift64*.

#[derive(Clone)]
pub struct Rand(u64);

impl Rand {
    pub fn new(seed: u64) -> Self {
        let mut rand = Rand(seed ^ 0x9e37_79b9_7f4a_7c15);
        rand.0 |= u64::from(rand.0 == 0);
        for _ in 0..4 {
            rand.word();
        }
        rand
    }

    /// A generator of its own for each of several numbers.
    pub fn of(numbers: &[u64]) -> Self {
        let mix = |seed: u64, &number: &u64| Rand::new(seed.rotate_left(23) ^ number).word();
        Rand::new(numbers.iter().fold(1, mix))
    }

    /// Another generator, made of this one, which stays where it is.
    pub fn aside(&self) -> Self {
        Rand::of(&[self.0])
    }

    pub fn word(&mut self) -> u64 {
        self.0 ^= self.0 >> 12;
        self.0 ^= self.0 << 25;
        self.0 ^= self.0 >> 27;
        self.0.wrapping_mul(0x2545_f491_4f6c_dd1d)
    }

    /// From `low` to `high`, both included.
    pub fn range(&mut self, low: usize, high: usize) -> usize {
        low + ((self.word() >> 33) as usize) % (high - low + 1)
    }

    /// Once in `times`.
    pub fn once_in(&mut self, times: usize) -> bool {
        self.range(1, times) == 1
    }

    pub fn pick<T: Copy>(&mut self, from: &[T]) -> T {
        from[self.range(0, from.len() - 1)]
    }

    /// In (0, 1].
    pub fn unit(&mut self) -> f64 {
        ((self.word() >> 11) + 1) as f64 / (1u64 << 53) as f64
    }

    pub fn permutation(&mut self, len: usize) -> Vec<usize> {
        let mut order: Vec<usize> = (0..len).collect();
        for i in (1..len).rev() {
            order.swap(i, self.range(0, i));
        }
        order
    }
}
