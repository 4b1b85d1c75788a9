//! Drawn lattices and texts: lists of some or all bonds in any order and sense, and damaged copies of them.
use super::Lattice;
use crate::lattices::{self, backward, Size};
use crate::rand::Rand;

#[derive(Clone, Debug)]
pub struct Case {
    pub lattice: Lattice,
    pub text: Vec<u8>,
    /// The length of the lent table.
    pub couplings: usize,
}

fn lattice(rand: &mut Rand) -> Lattice {
    let size = match rand.range(1, 100) {
        1 => Size::Middle,
        2..=20 => Size::Small,
        _ => Size::Tiny,
    };
    let lattices::Lattice { n, d, fwd } = lattices::any(rand, size);
    let bwd = backward(n, d, &fwd);
    Lattice { n, d, fwd, bwd }
}

/// 4,096 sites in four directions: four times a permutation, and a torus once in three times.
fn largest(rand: &mut Rand) -> Lattice {
    let (n, d) = (4096, 4);
    let fwd: Vec<u32> = match rand.once_in(3) {
        true => crate::timing::torus(d),
        false => {
            let along: Vec<Vec<usize>> = (0..d).map(|_| rand.permutation(n)).collect();
            (0..n * d).map(|k| along[k % d][k / d] as u32).collect()
        }
    };
    let bwd = backward(n, d, &fwd);
    Lattice { n, d, fwd, bwd }
}

pub fn coupling(rand: &mut Rand) -> i32 {
    let any = rand.range(0, 2_000_000) as i32 - 1_000_000;
    rand.pick(&[0, 1, -1, 1, -1, 1_000_000, -1_000_000, 10, -99, any, any])
}

/// A list of these bonds, each from either end.
fn text(rand: &mut Rand, lattice: &Lattice, bonds: &[usize]) -> Vec<u8> {
    let mut text = format!("{} {}\n", lattice.n, bonds.len());
    for &bond in bonds {
        let (i, j) = (bond / lattice.d + 1, lattice.fwd[bond] as usize + 1);
        let (i, j) = if rand.once_in(2) { (i, j) } else { (j, i) };
        text += &format!("{i} {j} {}\n", coupling(rand));
    }
    text.into_bytes()
}

/// A list that is not refused: every bond, or some.
pub fn good(rand: &mut Rand, whole: bool) -> Case {
    let lattice = if whole { largest(rand) } else { lattice(rand) };
    let bonds = lattice.n * lattice.d;
    let listed = match whole || rand.once_in(3) {
        true => bonds,
        false => rand.range(0, bonds),
    };
    let order = match rand.once_in(3) {
        true => (0..bonds).collect(),
        false => rand.permutation(bonds),
    };
    Case {
        text: text(rand, &lattice, &order[..listed]),
        couplings: bonds,
        lattice,
    }
}

/// The place and length of a line, with its line feed, or of a number.
fn piece(rand: &mut Rand, text: &[u8], inside: impl Fn(u8) -> bool) -> (usize, usize) {
    let at = rand.range(0, text.len().max(1) - 1);
    let before = text[..at].iter().rev().take_while(|&&b| inside(b)).count();
    let after = text[at..].iter().take_while(|&&b| inside(b)).count();
    (at - before, before + after)
}

fn line(rand: &mut Rand, text: &[u8]) -> (usize, usize) {
    let (start, length) = piece(rand, text, |byte| byte != b'\n');
    (start, (length + 1).min(text.len() - start))
}

fn number(rand: &mut Rand, text: &[u8]) -> (usize, usize) {
    piece(rand, text, |byte| byte.is_ascii_digit())
}

fn replace(text: &mut Vec<u8>, start: usize, length: usize, by: &[u8]) {
    text.splice(start..start + length, by.iter().copied());
}

fn byte(rand: &mut Rand, text: &mut Vec<u8>) {
    let (at, any) = (rand.range(0, text.len() - 1), rand.word() as u8);
    let by = rand.pick(&[any, b'0', b' ', b'\n', b'-', b'9', b'\t', 0]);
    match rand.range(0, 2) {
        0 => text[at] = by,
        1 => text.insert(at, by),
        _ => drop(text.remove(at)),
    }
}

fn lines(rand: &mut Rand, text: &mut Vec<u8>) {
    let (start, length) = line(rand, text);
    let taken = text[start..start + length].to_vec();
    let (to, _) = line(rand, text);
    match rand.range(0, 3) {
        0 => replace(text, start, length, b""),
        1 => replace(text, to, 0, &taken),
        2 => replace(text, start, 0, b"\n"),
        _ => text.extend(taken),
    }
}

fn digits(rand: &mut Rand, text: &mut Vec<u8>) {
    let (start, length) = number(rand, text);
    let twenty = rand.pick::<&[u8]>(&[
        b"18446744073709551617",
        b"10000000000000000000",
        b"99999999999999999999",
        b"00000000000000000001",
    ]);
    match rand.range(0, 5) {
        0 => replace(text, start, 0, b"0"),
        1 => replace(text, start, length, b"0"),
        2 => replace(text, start, 0, b"1"),
        3 => replace(text, start, length, twenty),
        4 => replace(text, start, length, b"1000001"),
        _ => replace(text, start, length, b"4097"),
    }
}

fn blanks(rand: &mut Rand, text: &mut Vec<u8>) {
    let (start, length) = number(rand, text);
    let at = rand.pick(&[start, start + length]);
    let by = rand.pick::<&[u8]>(&[b" ", b" ", b"\t", b"\x0b", b"\xc2\xa0"]);
    replace(text, at, 0, by);
}

fn signs(rand: &mut Rand, text: &mut Vec<u8>) {
    let (start, length) = number(rand, text);
    match rand.range(0, 3) {
        0 => replace(text, start, 0, b"+"),
        1 => replace(text, start, length, b"-0"),
        _ => replace(text, start, 0, b"-"),
    }
}

fn ends(rand: &mut Rand, text: &mut Vec<u8>) {
    match rand.range(0, 4) {
        0 => {
            let crlf = text.iter().flat_map(|&b| match b {
                b'\n' => vec![b'\r', b'\n'],
                b => vec![b],
            });
            *text = crlf.collect();
        }
        1 => {
            let (start, length) = line(rand, text);
            replace(text, start + length - 1, 0, b"\r");
        }
        2 => text.truncate(rand.range(0, text.len())),
        3 => text.push(rand.pick(b"\n 0\0")),
        _ => drop(text.pop()),
    }
}

/// A coupling that is too large, so that 6 stands beside what else is wrong.
fn large(rand: &mut Rand, text: &mut Vec<u8>) {
    let (start, length) = line(rand, text);
    let line = &text[start..start + length];
    if let Some(at) = line.iter().rposition(|&byte| byte == b' ') {
        let by = rand.pick::<&[u8]>(&[b"1000001\n", b"-1000001\n", b"-20000000000000000000\n"]);
        replace(text, start + at + 1, length - at - 1, by);
    }
}

fn lent(rand: &mut Rand, case: &mut Case) {
    let Lattice { n, d, fwd, bwd } = &mut case.lattice;
    let far = rand.pick(&[0, 4097, usize::MAX, 5]);
    match rand.range(0, 6) {
        0 => *n = rand.pick(&[far, *n + 1]),
        1 => *d = rand.pick(&[far, *d + 1]),
        2 => drop(fwd.pop()),
        3 => bwd.push(0),
        4 => case.couplings += rand.pick(&[1, 2]),
        k => {
            let table = if k == 5 { fwd } else { bwd };
            let at = rand.range(0, table.len().max(1) - 1);
            if let Some(entry) = table.get_mut(at) {
                *entry = rand.pick(&[*n as u32, u32::MAX, 0, entry.wrapping_add(1)]);
            }
        }
    }
}

/// One to three faults; some do no harm, as a line moved elsewhere.
pub fn damaged(rand: &mut Rand, whole: bool) -> Case {
    let mut case = good(rand, whole);
    for _ in 0..rand.pick(&[1, 1, 2, 3]) {
        if case.text.is_empty() {
            break;
        }
        match rand.range(0, 8) {
            0 | 1 => byte(rand, &mut case.text),
            2 => lines(rand, &mut case.text),
            3 => digits(rand, &mut case.text),
            4 => blanks(rand, &mut case.text),
            5 => signs(rand, &mut case.text),
            6 => ends(rand, &mut case.text),
            7 => large(rand, &mut case.text),
            _ => lent(rand, &mut case),
        }
    }
    case
}

/// What is lent to the writer beside the lattice.
#[derive(Clone, Debug)]
pub struct Room {
    pub couplings: Vec<i32>,
    pub text: usize,
    pub written: usize,
}

/// Room for a table's list of `length` bytes: as much, more, or one of the faults.
pub fn room(rand: &mut Rand, couplings: &[i32], length: usize) -> Room {
    let mut room = Room {
        couplings: couplings.to_vec(),
        text: length + rand.pick(&[0, 0, 1, 9]),
        written: 1,
    };
    let at = rand.range(0, couplings.len().max(1) - 1);
    match rand.range(0, 11) {
        0 => room.text = length.saturating_sub(1),
        1 => room.text = rand.range(0, length),
        2 => room.written = rand.pick(&[0, 2]),
        3 => drop(room.couplings.pop()),
        4 => room.couplings.push(0),
        5 if !couplings.is_empty() => {
            room.couplings[at] = rand.pick(&[1_000_001, -1_000_001, i32::MIN, i32::MAX]);
        }
        _ => {}
    }
    room
}
