//! Stand-ins for `rand`, `rand_xoshiro`, `rayon` and `validator`.
use std::ops::{Range, RangeInclusive};

#[derive(Clone, Debug)]
pub struct Xoshiro256StarStar([u64; 4]);

impl Xoshiro256StarStar {
    /// The four words from one by splitmix64.
    pub fn from_word(mut word: u64) -> Self {
        Self(std::array::from_fn(|_| {
            word = word.wrapping_add(0x9e37_79b9_7f4a_7c15);
            let mut z = word;
            z = (z ^ (z >> 30)).wrapping_mul(0xbf58_476d_1ce4_e5b9);
            z = (z ^ (z >> 27)).wrapping_mul(0x94d0_49bb_1331_11eb);
            z ^ (z >> 31)
        }))
    }

    /// A state whose next words are the given ones.
    pub fn before(words: [u64; 3]) -> Self {
        let inverse = |odd: u64| {
            (0..6).fold(odd, |x, _| {
                x.wrapping_mul(2u64.wrapping_sub(odd.wrapping_mul(x)))
            })
        };
        // each word is made of the second number of its state, and that of the one before
        let [now, next, last] = words.map(|word| {
            let turned = word.wrapping_mul(inverse(9)).rotate_right(7);
            turned.wrapping_mul(inverse(5))
        });
        let both = now ^ next; // the third number, after the first is added to it
        Self([1, now, both ^ 1, last ^ next ^ both ^ (now << 17) ^ now ^ 1])
    }

    /// A word that `gen_range(0..end)` makes this number of.
    pub fn word_for(number: usize, end: usize) -> u64 {
        ((number as u128) << 64).div_ceil(end as u128) as u64
    }

    #[inline]
    pub fn next_u64(&mut self) -> u64 {
        let s = &mut self.0;
        let word = s[1].wrapping_mul(5).rotate_left(7).wrapping_mul(9);
        let t = s[1] << 17;
        s[2] ^= s[0];
        s[3] ^= s[1];
        s[1] ^= s[2];
        s[0] ^= s[3];
        s[2] ^= t;
        s[3] = s[3].rotate_left(45);
        word
    }

    /// Below `end`, by the high half of a product.
    #[inline]
    fn below(&mut self, end: u64) -> u64 {
        ((u128::from(self.next_u64()) * u128::from(end)) >> 64) as u64
    }
}

pub trait Uniform: Sized {
    fn between(source: &mut Xoshiro256StarStar, low: Self, high: Self, inclusive: bool) -> Self;
}

impl Uniform for usize {
    #[inline]
    fn between(source: &mut Xoshiro256StarStar, low: Self, high: Self, inclusive: bool) -> Self {
        low + source.below((high - low) as u64 + u64::from(inclusive)) as usize
    }
}

impl Uniform for u8 {
    #[inline]
    fn between(source: &mut Xoshiro256StarStar, low: Self, high: Self, inclusive: bool) -> Self {
        low + source.below(u64::from(high - low) + u64::from(inclusive)) as u8
    }
}

pub trait UniformRange<T> {
    fn draw(self, source: &mut Xoshiro256StarStar) -> T;
}

impl<T: Uniform> UniformRange<T> for Range<T> {
    #[inline]
    fn draw(self, source: &mut Xoshiro256StarStar) -> T {
        T::between(source, self.start, self.end, false)
    }
}

impl<T: Uniform> UniformRange<T> for RangeInclusive<T> {
    #[inline]
    fn draw(self, source: &mut Xoshiro256StarStar) -> T {
        let (low, high) = self.into_inner();
        T::between(source, low, high, true)
    }
}

pub trait Standard {
    fn draw(source: &mut Xoshiro256StarStar) -> Self;
}

impl Standard for f32 {
    #[inline]
    fn draw(source: &mut Xoshiro256StarStar) -> f32 {
        (source.next_u64() >> 40) as f32 / 16_777_216.0
    }
}

pub trait Rng {
    fn gen<T: Standard>(&mut self) -> T;
    fn gen_range<T, R: UniformRange<T>>(&mut self, range: R) -> T;
}

impl Rng for Xoshiro256StarStar {
    #[inline]
    fn gen<T: Standard>(&mut self) -> T {
        T::draw(self)
    }

    #[inline]
    fn gen_range<T, R: UniformRange<T>>(&mut self, range: R) -> T {
        range.draw(self)
    }
}

pub mod seq {
    use super::Xoshiro256StarStar;

    pub trait SliceRandom {
        fn shuffle(&mut self, source: &mut Xoshiro256StarStar);
    }

    impl<T> SliceRandom for [T] {
        #[inline]
        fn shuffle(&mut self, source: &mut Xoshiro256StarStar) {
            for i in (1..self.len()).rev() {
                self.swap(i, source.below(i as u64 + 1) as usize);
            }
        }
    }
}

pub mod mcmc {
    use super::Xoshiro256StarStar;

    /// As published.
    #[inline]
    pub fn uniform_draw(source: &mut Xoshiro256StarStar) -> i64 {
        (source.next_u64() >> 2) as i64
    }
}

pub mod prelude {
    /// One thread: the port has no other.
    pub trait IntoParallelIterator {
        fn into_par_iter(self) -> std::ops::Range<usize>;
    }

    impl IntoParallelIterator for std::ops::Range<usize> {
        fn into_par_iter(self) -> std::ops::Range<usize> {
            self
        }
    }
}

/// Named by config.rs in checks that no run calls.
#[allow(dead_code)]
pub struct ValidationError(&'static str);

impl ValidationError {
    pub fn new(message: &'static str) -> Self {
        Self(message)
    }
}
