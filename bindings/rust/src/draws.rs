//! Draws that can be repeated. Each pointer goes with the length of the slice that it was taken from, and the library is
//! proved to stay inside.
use crate::answers::Refusal;
use crate::foreign::*;

/// A source of draws: the generator xoshiro256** of Blackman and Vigna. Equal sources give equal draws, everywhere. It is not
/// the stream of the crate `rand`.
///
/// Every draw is made of words, the first one first. A number below m is the high 32 bits of a word, taken again from the
/// next word while they are not below m times 2^32 / m, the quotient rounded down, and then their remainder by m.
///
/// A draw that is refused leaves the source and the buffer as they were. The number is 12 where m or a row's length is out
/// of range or 64 words in a row were taken again, and 2 where a buffer is no whole number of rows.
///
/// ```
/// use tsorvenk::{Refusal, Source};
///
/// let mut source = Source::new([1, 2, 3, 4])?;
/// assert_eq!(source.word(), Ok(11520));
/// let (mut flips, mut perms, mut seeds) = ([0; 6], [0; 8], [0; 3]);
/// source.fill_flips(&mut flips)?;
/// source.fill_permutations(4, &mut perms)?;
/// source.fill_below(4096, &mut seeds)?;
/// assert_eq!(flips, [0, 0, 0, 0, 0, 1]);
///
/// // the words are the state: a day goes on where they were written down
/// let again = Source::new(source.words())?;
/// assert_eq!(again, source);
/// assert_eq!(Source::new([0; 4]), Err(Refusal { number: 12 }));
/// # Ok::<(), Refusal>(())
/// ```
#[derive(Clone, Debug, PartialEq, Eq, Hash)]
pub struct Source {
    words: [u64; 4],
}

fn told<T>(number: u8, value: T) -> Result<T, Refusal> {
    match number {
        0 => Ok(value),
        number => Err(Refusal { number }),
    }
}

#[rustfmt::skip]
impl Source {
    /// From a seed, or from the [words](Source::words) of an earlier source. Four words of 0 are refused.
    pub fn new(words: [u64; 4]) -> Result<Source, Refusal> {
        let source = Source { words };
        source.clone().word()?;
        Ok(source)
    }

    /// The four words that the next draw starts from. They are never all 0.
    pub fn words(&self) -> [u64; 4] {
        self.words
    }

    /// The next word.
    #[inline]
    pub fn word(&mut self) -> Result<u64, Refusal> {
        let mut word = [0u64];
        let number = unsafe {
            tsorvenk_word(self.words.as_mut_ptr(), self.words.len(), word.as_mut_ptr(), word.len())
        };
        told(number, word[0])
    }

    /// The top bit of a word, 0 or 1.
    #[inline]
    pub fn coin(&mut self) -> Result<u8, Refusal> {
        let mut coin = [0u8];
        let number = unsafe {
            tsorvenk_coin(self.words.as_mut_ptr(), self.words.len(), coin.as_mut_ptr(), coin.len())
        };
        told(number, coin[0])
    }

    /// A number below `m`, which is 1 to 4096.
    #[inline]
    pub fn below(&mut self, m: u32) -> Result<u32, Refusal> {
        let mut below = [0u32];
        let number = unsafe {
            tsorvenk_below(m, self.words.as_mut_ptr(), self.words.len(), below.as_mut_ptr(), below.len())
        };
        told(number, below[0])
    }

    /// A permutation of 0 to N - 1 into a row of N bytes, 2 to 8: from the last place k down to place 1, place k is exchanged
    /// with one below k + 1.
    #[inline]
    pub fn permutation(&mut self, row: &mut [u8]) -> Result<(), Refusal> {
        let number = unsafe {
            tsorvenk_permutation(row.len(), self.words.as_mut_ptr(), self.words.len(), row.as_mut_ptr(), row.len())
        };
        told(number, ())
    }

    /// A coin into each byte: flips of SW.
    #[inline]
    pub fn fill_flips(&mut self, flips: &mut [u8]) -> Result<(), Refusal> {
        let number = unsafe {
            tsorvenk_fill_flips(self.words.as_mut_ptr(), self.words.len(), flips.as_mut_ptr(), flips.len())
        };
        told(number, ())
    }

    /// A number below `m`, which is 1 to 4096, into each entry: seeds and references of a sweep.
    #[inline]
    pub fn fill_below(&mut self, m: u32, numbers: &mut [u32]) -> Result<(), Refusal> {
        let number = unsafe {
            tsorvenk_fill_below(m, self.words.as_mut_ptr(), self.words.len(), numbers.as_mut_ptr(), numbers.len())
        };
        told(number, ())
    }

    /// A number below `m`, which is 1 to 256, into each byte: with 4, grey numbers of SW.
    #[inline]
    pub fn fill_bytes_below(&mut self, m: u32, bytes: &mut [u8]) -> Result<(), Refusal> {
        let number = unsafe {
            tsorvenk_fill_bytes_below(m, self.words.as_mut_ptr(), self.words.len(), bytes.as_mut_ptr(), bytes.len())
        };
        told(number, ())
    }

    /// A permutation into each row of `members` bytes, 2 to 8: permutations of SW.
    #[inline]
    pub fn fill_permutations(&mut self, members: usize, rows: &mut [u8]) -> Result<(), Refusal> {
        let number = unsafe {
            tsorvenk_fill_permutations(members, self.words.as_mut_ptr(), self.words.len(), rows.as_mut_ptr(), rows.len())
        };
        told(number, ())
    }

    /// A permutation that is not the identity into each row of `members` bytes, 2 to 8: permutations of Wolff. One that is the
    /// identity is drawn again as a whole; the 64th in a row is refused with 12.
    #[inline]
    pub fn wolff_permutation(&mut self, members: usize, rows: &mut [u8]) -> Result<(), Refusal> {
        let number = unsafe {
            tsorvenk_wolff_permutation(members, self.words.as_mut_ptr(), self.words.len(), rows.as_mut_ptr(), rows.len())
        };
        told(number, ())
    }

    /// The number of a permutation of five into each byte, a number below 120: permutations of SW by
    /// [numbers](crate::Coding::Numbers). It is one word each, and not the draw of a row.
    #[inline]
    pub fn fill_numbers(&mut self, perms: &mut [u8]) -> Result<(), Refusal> {
        let number = unsafe {
            tsorvenk_fill_numbers(self.words.as_mut_ptr(), self.words.len(), perms.as_mut_ptr(), perms.len())
        };
        told(number, ())
    }

    /// 1 to 119 into each byte, 1 more than a number below 119: permutations of Wolff by numbers.
    #[inline]
    pub fn wolff_numbers(&mut self, perms: &mut [u8]) -> Result<(), Refusal> {
        let number = unsafe {
            tsorvenk_wolff_numbers(self.words.as_mut_ptr(), self.words.len(), perms.as_mut_ptr(), perms.len())
        };
        told(number, ())
    }

    /// 1 to 3 into each byte, 1 more than a number below 3: grey numbers of Wolff.
    #[inline]
    pub fn wolff_grey(&mut self, greys: &mut [u8]) -> Result<(), Refusal> {
        let number = unsafe {
            tsorvenk_wolff_grey(self.words.as_mut_ptr(), self.words.len(), greys.as_mut_ptr(), greys.len())
        };
        told(number, ())
    }
}
