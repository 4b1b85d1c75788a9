//! Request 2/14 in plain Rust, written from its text: an edge list read into a table of couplings, and written from one.
pub mod make;
pub mod port;

use std::collections::{HashMap, VecDeque};
use std::fmt::Write;

/// Sizes and neighbour tables, of any length and content.
#[derive(Clone, Debug, PartialEq, Eq)]
pub struct Lattice {
    pub n: usize,
    pub d: usize,
    pub fwd: Vec<u32>,
    pub bwd: Vec<u32>,
}

const LARGEST: i32 = 1_000_000;

/// The number of a refusal, and what follows it is not looked at.
type Refused<T> = Result<T, u8>;

fn keep(holds: bool, number: u8) -> Refused<()> {
    holds.then_some(()).ok_or(number)
}

impl Lattice {
    fn inverse(&self) -> bool {
        let at = |table: &[u32], i: u32, e: usize| table.get(i as usize * self.d + e).copied();
        (0..self.n as u32).all(|i| {
            (0..self.d).all(|e| {
                let (ahead, behind) = (at(&self.fwd, i, e), at(&self.bwd, i, e));
                let back = |to: Option<u32>, table: &[u32]| {
                    to.is_some_and(|to| (to as usize) < self.n && at(table, to, e) == Some(i))
                };
                back(ahead, &self.bwd) && back(behind, &self.fwd)
            })
        })
    }

    /// Tests 1, 2 and 4, with a table of couplings of this length; `fits` is the rest of test 2.
    fn tested(&self, couplings: usize, fits: bool) -> Refused<()> {
        keep((1..=4096).contains(&self.n) && (1..=4).contains(&self.d), 1)?;
        let bonds = self.n * self.d;
        let exact = [self.fwd.len(), self.bwd.len(), couplings];
        keep(fits && exact == [bonds; 3], 2)?;
        keep(self.inverse(), 4)
    }

    /// The bonds between each two sites, in either sense, the lowest first.
    fn bonds(&self) -> HashMap<(usize, usize), VecDeque<usize>> {
        let mut bonds: HashMap<_, VecDeque<usize>> = HashMap::new();
        for (bond, &to) in self.fwd.iter().enumerate() {
            let pair = ordered(bond / self.d, to as usize);
            bonds.entry(pair).or_default().push_back(bond);
        }
        bonds
    }
}

fn ordered(i: usize, j: usize) -> (usize, usize) {
    (i.min(j), i.max(j))
}

/// Digits, of which the first is 0 only where it stands alone.
fn decimal(field: &[u8]) -> Refused<&[u8]> {
    let digits = !field.is_empty() && field.iter().all(u8::is_ascii_digit);
    keep(digits && (field == b"0" || field[0] != b'0'), 13)?;
    Ok(field)
}

/// The value of at most nine digits.
fn value(digits: &[u8]) -> Option<usize> {
    let text = std::str::from_utf8(digits).ok()?;
    (digits.len() < 10).then(|| text.parse().unwrap())
}

/// A site, counted from 0.
fn site(field: &[u8], n: usize) -> Refused<usize> {
    let site = value(decimal(field)?).unwrap_or(usize::MAX);
    keep((1..=n).contains(&site), 13)?;
    Ok(site - 1)
}

/// None where its size is above the largest.
fn coupling(field: &[u8]) -> Refused<Option<i32>> {
    let (sign, digits) = match field.strip_prefix(b"-") {
        Some(digits) => (-1, decimal(digits)?),
        None => (1, decimal(field)?),
    };
    keep(sign == 1 || digits != b"0", 13)?;
    let size = value(digits).filter(|&size| size <= LARGEST as usize);
    Ok(size.map(|size| sign * size as i32))
}

fn fields<const K: usize>(line: &[u8]) -> Refused<[&[u8]; K]> {
    let fields: Vec<&[u8]> = line.split(|&byte| byte == b' ').collect();
    fields.try_into().map_err(|_| 13)
}

/// The table that a text gives, with none where a coupling is too large.
fn table(lattice: &Lattice, text: &[u8]) -> Refused<Vec<Option<i32>>> {
    let text = text.strip_suffix(b"\n").ok_or(13)?;
    let lines: Vec<&[u8]> = text.split(|&byte| byte == b'\n').collect();
    let [n, m] = fields(lines[0])?;
    keep(n == lattice.n.to_string().as_bytes(), 13)?;
    keep(m == (lines.len() - 1).to_string().as_bytes(), 13)?;
    let mut unfilled = lattice.bonds();
    let mut table = vec![Some(0); lattice.fwd.len()];
    for line in &lines[1..] {
        let [i, j, size] = fields(line)?;
        let pair = ordered(site(i, lattice.n)?, site(j, lattice.n)?);
        let size = coupling(size)?;
        let bond = unfilled.get_mut(&pair).and_then(VecDeque::pop_front);
        table[bond.ok_or(13)?] = size;
    }
    Ok(table)
}

fn reading(lattice: &Lattice, text: &[u8], couplings: usize) -> Refused<Vec<i32>> {
    lattice.tested(couplings, true)?;
    let table = table(lattice, text)?;
    table.into_iter().collect::<Option<_>>().ok_or(6)
}

/// Fills the couplings; the number that comes back.
pub fn read(lattice: &Lattice, text: &[u8], couplings: &mut [i32]) -> u8 {
    match reading(lattice, text, couplings.len()) {
        Ok(table) => {
            couplings.copy_from_slice(&table);
            0
        }
        Err(number) => number,
    }
}

/// The list of a table.
pub fn list(lattice: &Lattice, couplings: &[i32]) -> String {
    let listed: Vec<usize> = (0..couplings.len())
        .filter(|&k| couplings[k] != 0)
        .collect();
    let mut text = format!("{} {}\n", lattice.n, listed.len());
    for bond in listed {
        let (i, j) = (bond / lattice.d + 1, lattice.fwd[bond] + 1);
        writeln!(text, "{i} {j} {}", couplings[bond]).unwrap();
    }
    text
}

fn writing(lattice: &Lattice, couplings: &[i32], room: usize, places: usize) -> Refused<String> {
    lattice.tested(couplings.len(), places == 1)?;
    let small = |&coupling: &i32| (-LARGEST..=LARGEST).contains(&coupling);
    keep(couplings.iter().all(small), 6)?;
    let text = list(lattice, couplings);
    keep(text.len() <= room, 2)?;
    Ok(text)
}

/// Writes the list to the front of the text, and its length; the number that comes back.
pub fn write(lattice: &Lattice, couplings: &[i32], text: &mut [u8], written: &mut [usize]) -> u8 {
    match writing(lattice, couplings, text.len(), written.len()) {
        Ok(list) => {
            text[..list.len()].copy_from_slice(list.as_bytes());
            written[0] = list.len();
            0
        }
        Err(number) => number,
    }
}

/// No two bonds join the same pair of sites.
pub fn simple(lattice: &Lattice) -> bool {
    lattice.bonds().values().all(|bonds| bonds.len() == 1)
}
