//! Sources built backwards. A drawn seed meets a word that is taken again once in a million words at best, and mostly once in
//! 2^32, so sources are made that meet some at once: any four words in a row can be asked for. 64 cannot: a source has 256
//! bits, four words' worth, and beyond these no way is known but to try seeds.
use super::{limit, Source};
use crate::rand::Rand;

/// The x with x * odd = 1: each turn doubles the bits that are right, of which an odd number has three to begin with.
fn inverse(odd: u64) -> u64 {
    (0..5).fold(odd, |x, _| {
        x.wrapping_mul(2u64.wrapping_sub(odd.wrapping_mul(x)))
    })
}

/// The second word of the state that gives this word.
fn second(word: u64) -> u64 {
    let turned = word.wrapping_mul(inverse(9)).rotate_right(7);
    turned.wrapping_mul(inverse(5))
}

/// The source whose next four words are these. The second words a, b, c, e of the four states are known; the others
/// follow from b = a ^ s0 ^ s2 and so on, since a step is linear.
pub fn giving(words: [u64; 4]) -> Source {
    let [a, b, c, e] = words.map(second);
    let (s0_s2, third) = (a ^ b, a ^ b ^ (a << 17)); // third: the third word after one step
    let first = c ^ b ^ third; // the first word after one step
    let third_later = third ^ first ^ (b << 17);
    let first_later = e ^ c ^ third_later;
    let fourth = first_later ^ first ^ b; // the fourth word after one step
    let s3 = fourth.rotate_right(45) ^ a;
    let s0 = first ^ a ^ s3;
    Source([s0, a, s0 ^ s0_s2, s3])
}

/// The source that this one is one word after.
pub fn before(source: Source) -> Source {
    let [s0, s1, s2, s3] = source.0;
    let turned = s3.rotate_right(45);
    let first = s0 ^ turned;
    let mixed = s1 ^ s2; // x ^ x << 17 for the second word x
    let second = mixed ^ (mixed << 17) ^ (mixed << 34) ^ (mixed << 51);
    Source([first, second, s2 ^ first ^ (second << 17), turned ^ second])
}

/// A word that a number below `m` takes again, if there is one.
pub fn again(rand: &mut Rand, m: u32) -> Option<u64> {
    let (from, most) = (limit(m), u64::from(u32::MAX));
    (from <= most).then(|| {
        let any = from + rand.word() % (most - from + 1);
        let high = rand.pick(&[from, most, any]);
        (high << 32) | (rand.word() >> 32)
    })
}

/// A source whose words `skipped`, `skipped + 1` and so on, `turns` of them, up to 4, are taken again by a number below `m`.
/// The word behind them is not, where there are at most three.
pub fn taken_again(rand: &mut Rand, m: u32, turns: usize, skipped: usize) -> Option<Source> {
    let mut words = [0; 4];
    for (k, word) in words.iter_mut().enumerate() {
        *word = match k < turns {
            true => again(rand, m)?,
            false => rand.word() & !(1 << 63),
        };
    }
    Some((0..skipped).fold(giving(words), |source, _| before(source)))
}
