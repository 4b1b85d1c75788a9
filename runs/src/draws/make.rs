//! Drawn calls: good ones, ones that meet words or identities which are taken again, and damaged ones.
use super::backwards::{giving, taken_again};
use super::{limit, Draw, Out, Source};
use crate::rand::Rand;

#[derive(Clone, Debug, PartialEq, Eq)]
pub struct Case {
    pub draw: Draw,
    pub source: Vec<u64>,
    pub out: Out,
}

pub const KINDS: usize = 12;

fn below(rand: &mut Rand, most: u32) -> u32 {
    let any = rand.range(1, most as usize) as u32;
    rand.pick(&[1, 2, 3, 7, most - 1, most, any, any, any])
}

fn draw(rand: &mut Rand, kind: usize) -> Draw {
    let members = rand.range(2, 8);
    match kind {
        0 => Draw::Word,
        1 => Draw::Coin,
        2 => Draw::Below(below(rand, 4096)),
        3 => Draw::Permutation(members),
        4 => Draw::Flips,
        5 => Draw::Numbers(below(rand, 4096)),
        6 => Draw::Bytes(below(rand, 256)),
        7 => Draw::Rows(members),
        8 => Draw::WolffRows(members),
        9 => Draw::WolffGreys,
        10 => Draw::Orders,
        _ => Draw::WolffOrders,
    }
}

/// Words of every weight: dense ones, a few bits, small numbers.
pub fn seed(rand: &mut Rand) -> Source {
    loop {
        let word = |rand: &mut Rand| match rand.range(0, 5) {
            0 => 0,
            1 => rand.range(0, 9) as u64,
            2 => 1 << rand.range(0, 63),
            3 => u64::MAX,
            _ => rand.word(),
        };
        let words = [(); 4].map(|_| word(rand));
        if words != [0; 4] {
            return Source(words);
        }
    }
}

fn length(rand: &mut Rand, draw: Draw) -> usize {
    let entries = match rand.range(1, 200) {
        1 => 4096,
        2..=20 => 0,
        _ => rand.range(1, 40),
    };
    match draw {
        Draw::Word | Draw::Coin | Draw::Below(_) => 1,
        Draw::Permutation(members) => members,
        Draw::Rows(members) | Draw::WolffRows(members) => entries * members,
        _ => entries,
    }
}

fn case(draw: Draw, source: Source, length: usize) -> Case {
    Case {
        draw,
        source: source.0.to_vec(),
        out: draw.lent(length),
    }
}

pub fn good(rand: &mut Rand, kind: usize) -> Case {
    let draw = draw(rand, kind);
    let length = length(rand, draw);
    case(draw, seed(rand), length)
}

/// A call that takes words again, up to four in a row, and how many: in a permutation those of one place.
pub fn again(rand: &mut Rand) -> (Case, usize) {
    loop {
        let turns = rand.range(1, 4);
        let at = rand.range(0, 20);
        let kind = rand.pick(&[2, 3, 5, 6, 7, 8, 9, 10, 11]);
        let draw = draw(rand, kind);
        let (m, skipped, length) = match draw {
            Draw::Below(m) => (m, 0, 1),
            Draw::Numbers(m) | Draw::Bytes(m) => (m, at, at + 5),
            Draw::WolffGreys => (3, at, at + 5),
            Draw::Orders => (120, at, at + 5),
            Draw::WolffOrders => (119, at, at + 5),
            Draw::Permutation(members) | Draw::Rows(members) | Draw::WolffRows(members) => {
                let row = if kind == 7 { at } else { 0 };
                let place = rand.range(1, members - 1);
                let skipped = row * (members - 1) + members - 1 - place;
                let rows = if kind == 3 { 1 } else { row + 2 };
                (place as u32 + 1, skipped, rows * members)
            }
            _ => continue,
        };
        if let Some(source) = taken_again(rand, m, turns, skipped) {
            return (case(draw, source, length), turns);
        }
    }
}

/// A word from which a number below `m` is this one.
fn giving_number(rand: &mut Rand, m: u32, number: u32) -> u64 {
    let most = limit(m) / u64::from(m);
    let high = u64::from(m) * (rand.word() % most) + u64::from(number);
    (high << 32) | (rand.word() >> 32)
}

/// Rows of two to five that begin with identities, and how many: as many as four words hold.
pub fn identities(rand: &mut Rand) -> (Case, usize) {
    let members = rand.range(2, 5);
    let mut places = (1..members as u32).rev().cycle();
    let words = [(); 4].map(|_| {
        let place = places.next().unwrap();
        giving_number(rand, place + 1, place)
    });
    let draw = Draw::WolffRows(members);
    (case(draw, giving(words), 3 * members), 4 / (members - 1))
}

/// The longest run of identities of two that is found in so many words.
pub fn longest(rand: &mut Rand, words: usize) -> (Case, usize) {
    let mut source = seed(rand);
    let (mut start, mut best) = (source, (source, 0));
    let mut run = 0;
    for _ in 0..words {
        if run == 0 {
            start = source;
        }
        run = match source.word() >> 32 & 1 {
            1 => run + 1,
            _ => 0,
        };
        if run > best.1 {
            best = (start, run);
        }
    }
    (case(Draw::WolffRows(2), best.0, 6), best.1)
}

fn resize(out: &mut Out, length: usize) {
    match out {
        Out::Words(words) => words.resize(length, 7),
        Out::Numbers(numbers) => numbers.resize(length, 7),
        Out::Bytes(bytes) => bytes.resize(length, 7),
    }
}

/// One to three faults in a good call, so that the first in the order of the tests must win.
pub fn damaged(rand: &mut Rand) -> Case {
    let kind = rand.range(0, KINDS - 1);
    let mut case = good(rand, kind);
    for _ in 0..rand.pick(&[1, 1, 2, 3]) {
        let m = rand.pick(&[0, 4097, 257, u32::MAX]);
        let members = rand.pick(&[0, 1, 9, usize::MAX]);
        match rand.range(0, 3) {
            0 => case.source.resize(rand.pick(&[0, 1, 3, 5, 8]), 1),
            1 => case.source.fill(0),
            2 => {
                let near = [case.out.len().saturating_sub(1), case.out.len() + 1, 0];
                resize(&mut case.out, rand.pick(&near));
            }
            _ => match &mut case.draw {
                Draw::Below(old) | Draw::Numbers(old) | Draw::Bytes(old) => *old = m,
                Draw::Permutation(old) | Draw::Rows(old) | Draw::WolffRows(old) => *old = members,
                _ => {}
            },
        }
    }
    case
}
