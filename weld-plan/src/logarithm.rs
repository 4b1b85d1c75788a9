//! Minus the logarithm of a uniform number, with the same bits on every machine.
//!
//! A machine's own logarithm may differ from another's in the last bit, and one such bit would turn a day. Here are additions,
//! subtractions, multiplications and divisions of f64 alone, which IEEE 754 fixes to the bit, in an order that Rust does not change
//! and does not fuse. What comes out is within a few units of the last place of the true value; that is more than a draw needs.

/// The front bits of ln 2, few enough that a whole number up to 53 times it is exact, and the rest.
const LN2_FRONT: f64 = f64::from_bits(0x3fe6_2e42_fee0_0000);
const LN2_REST: f64 = f64::from_bits(0x3dea_39ef_3579_3c76);

/// No draw is larger: 53 ln 2, rounded up.
pub const LARGEST: f64 = 36.8;

/// The terms 1/3, 1/5 .. 1/23 of the series of atanh: the next one is below 2^-59 of the sum where the fraction is at most 0.172.
const TERMS: [f64; 11] =
    [1.0 / 3.0, 1.0 / 5.0, 1.0 / 7.0, 1.0 / 9.0, 1.0 / 11.0, 1.0 / 13.0, 1.0 / 15.0, 1.0 / 17.0, 1.0 / 19.0, 1.0 / 21.0, 1.0 / 23.0];

/// Minus the natural logarithm of k / 2^53, where k is 1 more than the high 53 bits of the word: of a uniform number in (0, 1].
pub fn minus_log(word: u64) -> f64 {
    let k = (word >> 11) + 1;
    // k is m * 2^e with m from 1 up to 2: k has at most 54 bits, and is exact as f64
    let bits = (k as f64).to_bits();
    let mut e = (bits >> 52) as i64 - 1023;
    let mut m = f64::from_bits((bits & 0x000f_ffff_ffff_ffff) | 0x3ff0_0000_0000_0000);
    if m > std::f64::consts::SQRT_2 {
        (m, e) = (m * 0.5, e + 1);
    }
    // ln m = 2 atanh((m - 1) / (m + 1))
    let f = (m - 1.0) / (m + 1.0);
    let square = f * f;
    let sum = TERMS.iter().rev().fold(0.0, |sum, term| (sum + term) * square);
    let ln = 2.0 * f + 2.0 * f * sum;
    let twos = (53 - e) as f64;
    twos * LN2_FRONT + (twos * LN2_REST - ln)
}

#[cfg(test)]
mod tests {
    use super::{minus_log, LARGEST};
    use tsorvenk::Source;

    #[test]
    fn it_is_the_logarithm() {
        let mut source = Source::new([5, 6, 7, 8]).unwrap();
        let near_one = (0..1000).map(|k| u64::MAX - (k << 11));
        let near_zero = (0..1000).map(|k| k << 11);
        let anywhere: Vec<u64> = (0..100_000).map(|k| source.word().unwrap() >> (k % 50)).collect();
        for word in near_one.chain(near_zero).chain(anywhere) {
            let true_one = -((((word >> 11) + 1) as f64) / (1u64 << 53) as f64).ln();
            let ours = minus_log(word);
            assert!((ours - true_one).abs() <= 4e-16 * (1.0f64).max(true_one) && ours <= LARGEST, "{word:x}: {ours} {true_one}");
            // near 1 the whole logarithm is small, and exact enough for its size too
            assert!((ours - true_one).abs() <= 1e-14 * true_one, "{word:x}: {ours:e} {true_one:e}");
        }
    }

    #[test]
    fn it_has_these_bits_everywhere() {
        assert_eq!(minus_log(u64::MAX).to_bits(), 0);
        let words = [0, 1 << 63, 0x0123_4567_89ab_cdef, 0xfedc_ba98_7654_3210, u64::MAX - (1 << 11)];
        let bits: Vec<u64> = words.iter().map(|&word| minus_log(word).to_bits()).collect();
        assert_eq!(bits, [0x40425e4f7b2737fa, 0x3fe62e42fefa39ed, 0x4015aa16394d4818, 0x3f723eb991354e4b, 0x3ca0000000000000]);
        let mut source = Source::new([1, 2, 3, 4]).unwrap();
        let mut all = Vec::new();
        for _ in 0..10_000 {
            all.extend_from_slice(&minus_log(source.word().unwrap()).to_bits().to_le_bytes());
        }
        assert_eq!(crate::sha256::hex(&all), "d6f477f2e70a43e46f2aa9c9bc4d9d9d756909ab01bdedf51977d0193eb9aa6b");
    }

    #[test]
    fn more_is_less() {
        let mut source = Source::new([9, 9, 9, 9]).unwrap();
        for _ in 0..10_000 {
            let word = source.word().unwrap() & !0x7ff;
            let next = word.saturating_add(1 << 11);
            assert!(minus_log(word) >= minus_log(next), "{word:x}");
        }
    }
}
