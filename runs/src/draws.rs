//! Request 1/14 in plain Rust, written from its text: xoshiro256**, coins, numbers below m, permutations, and buffers of them; and numbers
//! of permutations of five for 8/14.
pub mod backwards;
pub mod make;
pub mod port;

/// The four words, which every word drawn steps.
#[derive(Clone, Copy, Debug, PartialEq, Eq)]
pub struct Source(pub [u64; 4]);

/// How often a word may be taken again for one number, or a permutation for one row of a one-cluster move.
const TURNS: usize = 64;

/// The high half of a word from which a number below `m` takes the next word.
pub fn limit(m: u32) -> u64 {
    let m = u64::from(m);
    m * ((1 << 32) / m)
}

impl Source {
    pub fn word(&mut self) -> u64 {
        let Source(s) = self;
        let word = s[1].wrapping_mul(5).rotate_left(7).wrapping_mul(9);
        let shifted = s[1] << 17;
        s[2] ^= s[0];
        s[3] ^= s[1];
        s[1] ^= s[2];
        s[0] ^= s[3];
        s[2] ^= shifted;
        s[3] = s[3].rotate_left(45);
        word
    }

    pub fn coin(&mut self) -> u8 {
        (self.word() >> 63) as u8
    }

    /// None after 64 words in a row that are taken again.
    pub fn below(&mut self, m: u32) -> Option<u32> {
        let high = (0..TURNS)
            .map(|_| self.word() >> 32)
            .find(|&high| high < limit(m))?;
        Some((high % u64::from(m)) as u32)
    }

    pub fn permutation(&mut self, members: usize) -> Option<Vec<u8>> {
        let mut row: Vec<u8> = (0..members as u8).collect();
        for place in (1..members).rev() {
            let other = self.below(place as u32 + 1)?;
            row.swap(place, other as usize);
        }
        Some(row)
    }

    /// A permutation other than the identity; none where a number is none or 64 in a row are the identity.
    pub fn not_identity(&mut self, members: usize) -> Option<Vec<u8>> {
        for _ in 0..TURNS {
            let row = self.permutation(members)?;
            if row.iter().enumerate().any(|(k, &v)| usize::from(v) != k) {
                return Some(row);
            }
        }
        None
    }
}

/// What is asked of a source, with m or the number of members.
#[derive(Clone, Copy, Debug, PartialEq, Eq)]
pub enum Draw {
    Word,
    Coin,
    Below(u32),
    Permutation(usize),
    Flips,
    Numbers(u32),
    Bytes(u32),
    Rows(usize),
    WolffRows(usize),
    WolffGreys,
    Orders,
    WolffOrders,
}

/// What is lent to be written, in the element that the draw takes.
#[derive(Clone, Debug, PartialEq, Eq)]
pub enum Out {
    Words(Vec<u64>),
    Numbers(Vec<u32>),
    Bytes(Vec<u8>),
}

impl Out {
    pub fn len(&self) -> usize {
        match self {
            Out::Words(words) => words.len(),
            Out::Numbers(numbers) => numbers.len(),
            Out::Bytes(bytes) => bytes.len(),
        }
    }

    pub fn is_empty(&self) -> bool {
        self.len() == 0
    }
}

impl Draw {
    /// A buffer of this length for it, full of what no draw leaves there.
    pub fn lent(self, length: usize) -> Out {
        match self {
            Draw::Word => Out::Words(vec![0x5a5a_5a5a_5a5a_5a5a; length]),
            Draw::Below(_) | Draw::Numbers(_) => Out::Numbers(vec![0x5a5a_5a5a; length]),
            _ => Out::Bytes(vec![0x5a; length]),
        }
    }

    fn in_range(self) -> bool {
        match self {
            Draw::Below(m) | Draw::Numbers(m) => (1..=4096).contains(&m),
            Draw::Bytes(m) => (1..=256).contains(&m),
            Draw::Permutation(members) | Draw::Rows(members) | Draw::WolffRows(members) => {
                (2..=8).contains(&members)
            }
            _ => true,
        }
    }

    fn fits(self, length: usize) -> bool {
        match self {
            Draw::Word | Draw::Coin | Draw::Below(_) => length == 1,
            Draw::Permutation(members) => length == members,
            Draw::Rows(members) | Draw::WolffRows(members) => length % members == 0,
            _ => true,
        }
    }

    fn drawn(self, source: &mut Source, length: usize) -> Option<Out> {
        let mut number = |m| source.below(m);
        Some(match self {
            Draw::Word => Out::Words(vec![source.word()]),
            Draw::Coin | Draw::Flips => Out::Bytes((0..length).map(|_| source.coin()).collect()),
            Draw::Below(m) | Draw::Numbers(m) => {
                Out::Numbers((0..length).map(|_| number(m)).collect::<Option<_>>()?)
            }
            Draw::Bytes(m) => {
                let byte = |_| number(m).map(|v| v as u8);
                Out::Bytes((0..length).map(byte).collect::<Option<_>>()?)
            }
            Draw::WolffGreys => {
                let grey = |_| number(3).map(|v| v as u8 + 1);
                Out::Bytes((0..length).map(grey).collect::<Option<_>>()?)
            }
            Draw::Orders => {
                let order = |_| number(120).map(|v| v as u8);
                Out::Bytes((0..length).map(order).collect::<Option<_>>()?)
            }
            Draw::WolffOrders => {
                let order = |_| number(119).map(|v| v as u8 + 1);
                Out::Bytes((0..length).map(order).collect::<Option<_>>()?)
            }
            Draw::Permutation(members) | Draw::Rows(members) => {
                let row = |_| source.permutation(members);
                let rows: Vec<Vec<u8>> = (0..length / members).map(row).collect::<Option<_>>()?;
                Out::Bytes(rows.concat())
            }
            Draw::WolffRows(members) => {
                let row = |_| source.not_identity(members);
                let rows: Vec<Vec<u8>> = (0..length / members).map(row).collect::<Option<_>>()?;
                Out::Bytes(rows.concat())
            }
        })
    }

    /// The number that comes back; where it is not 0 nothing is written.
    pub fn answer(self, source: &mut [u64], out: &mut Out) -> u8 {
        let Ok(words) = <[u64; 4]>::try_from(&source[..]) else {
            return 2;
        };
        if words == [0; 4] || !self.in_range() {
            return 12;
        }
        if !self.fits(out.len()) {
            return 2;
        }
        let mut stepped = Source(words);
        let Some(drawn) = self.drawn(&mut stepped, out.len()) else {
            return 12;
        };
        source.copy_from_slice(&stepped.0);
        *out = drawn;
        0
    }
}
