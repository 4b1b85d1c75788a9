//! Stand-ins for `rand`, `rand_xoshiro`, `rayon` and `validator`: a "generator" is one group's lent choices.
use std::ops::{Range, RangeInclusive};

/// How many draws of each kind were taken.
#[derive(Clone, Copy, Debug, Default, PartialEq, Eq)]
pub struct Taken {
    pub sites: usize,
    pub flips: usize,
    pub perms: usize,
    pub greys: usize,
}

/// One group's choices, each kind in the order of the published draws. The all-clusters loops draw at the first site
/// of each component in ascending order, so their queues are in the order of smallest sites, which is that of numbers.
#[derive(Clone, Debug, Default)]
pub struct Xoshiro256StarStar {
    /// By bond, not by turn.
    pub cuts: Vec<f32>,
    /// gperm's reference site, then the seed, which answers each further probe of the seed search.
    pub sites: Vec<usize>,
    pub flips: Vec<u8>,
    /// One permutation after the other.
    pub perms: Vec<u8>,
    pub greys: Vec<u8>,
    /// A scouting run finds out who draws: nothing flips, and every permutation is the rotation by one place.
    pub scout: bool,
    pub taken: Taken,
}

impl Xoshiro256StarStar {
    pub fn used_up(&self, members: usize) -> bool {
        self.taken.flips == self.flips.len()
            && self.taken.greys == self.greys.len()
            && self.taken.perms * members == self.perms.len()
    }
}

/// What a draw of this type hands out.
pub trait Lent: Sized {
    fn take(source: &mut Xoshiro256StarStar) -> Self;
}

impl Lent for usize {
    #[inline]
    fn take(source: &mut Xoshiro256StarStar) -> usize {
        let at = source.taken.sites.min(source.sites.len() - 1);
        source.taken.sites += 1;
        source.sites[at]
    }
}

/// A grey number.
impl Lent for u8 {
    #[inline]
    fn take(source: &mut Xoshiro256StarStar) -> u8 {
        let at = source.taken.greys;
        source.taken.greys += 1;
        if source.scout {
            0
        } else {
            source.greys[at]
        }
    }
}

/// A flip: the published test is `gen::<f32>() < 0.5`.
impl Lent for f32 {
    #[inline]
    fn take(source: &mut Xoshiro256StarStar) -> f32 {
        let at = source.taken.flips;
        source.taken.flips += 1;
        if !source.scout && source.flips[at] == 1 {
            0.25
        } else {
            0.75
        }
    }
}

pub trait LentRange<T> {
    fn holds(&self, value: &T) -> bool;
}

impl<T: PartialOrd> LentRange<T> for Range<T> {
    fn holds(&self, value: &T) -> bool {
        self.contains(value)
    }
}

impl<T: PartialOrd> LentRange<T> for RangeInclusive<T> {
    fn holds(&self, value: &T) -> bool {
        self.contains(value)
    }
}

pub trait Rng {
    fn gen<T: Lent>(&mut self) -> T;
    fn gen_range<T: Lent, R: LentRange<T>>(&mut self, range: R) -> T;
}

impl Rng for Xoshiro256StarStar {
    #[inline]
    fn gen<T: Lent>(&mut self) -> T {
        T::take(self)
    }

    #[inline]
    fn gen_range<T: Lent, R: LentRange<T>>(&mut self, range: R) -> T {
        let value = T::take(self);
        assert!(
            self.scout || range.holds(&value),
            "a lent choice is out of the drawn range"
        );
        value
    }
}

pub mod seq {
    use super::Xoshiro256StarStar;

    pub trait SliceRandom {
        fn shuffle(&mut self, source: &mut Xoshiro256StarStar);
    }

    /// The systems of a temperature: the caller's order stands.
    impl SliceRandom for [usize] {
        fn shuffle(&mut self, _source: &mut Xoshiro256StarStar) {}
    }

    /// A permutation of the group: place k gets what stood at p(k).
    impl SliceRandom for [u8] {
        fn shuffle(&mut self, source: &mut Xoshiro256StarStar) {
            let len = self.len();
            let at = source.taken.perms * len;
            source.taken.perms += 1;
            if source.scout {
                self.rotate_left(1);
                return;
            }
            let old = self.to_vec();
            for (k, value) in self.iter_mut().enumerate() {
                *value = old[usize::from(source.perms[at + k])];
            }
        }
    }
}

pub mod mcmc {
    use super::Xoshiro256StarStar;

    /// The cut of the bond last asked for. With the patched line of `BondSampler` the bond is drawn where
    /// the scale times the strength, in f32, is greater.
    #[inline]
    pub fn uniform_draw(source: &mut Xoshiro256StarStar) -> f32 {
        source.cuts[crate::geometry::last_bond()]
    }
}

pub mod prelude {
    /// The tasks in falling order: a run with `sequential` off shows that their order does not matter.
    pub trait IntoParallelIterator {
        fn into_par_iter(self) -> std::iter::Rev<std::ops::Range<usize>>;
    }

    impl IntoParallelIterator for std::ops::Range<usize> {
        fn into_par_iter(self) -> std::iter::Rev<std::ops::Range<usize>> {
            self.rev()
        }
    }
}

/// Named by config.rs in checks that no run calls.
#[allow(dead_code)]
pub struct ValidationError(&'static str);

impl ValidationError {
    pub fn new(message: &'static str) -> Self {
        Self(message)
    }
}
