//! Request 13/14 from its text: every permutation of the group is tried on every component, and components are found by a flood from each site. What moves,
//! the labels and the bonds of the other calls are not used here.
use super::refusals::{pins_refused, sizes_refused, spins_refused, tables_refused};
use super::Panel;
use calls::{CheckVendor, Mode};
use std::sync::LazyLock;

/// The answer that is no refusal where some component is at fault.
pub const NO: u8 = 67;

fn extend(word: &mut Vec<u8>, len: usize, all: &mut Vec<Vec<u8>>) {
    if word.len() == len {
        all.push(word.clone());
    }
    for digit in 0..len as u8 {
        if word.len() < len && !word.contains(&digit) {
            word.push(digit);
            extend(word, len, all);
            word.pop();
        }
    }
}

static WORDS: LazyLock<Vec<Vec<Vec<u8>>>> = LazyLock::new(|| {
    let of = |len| {
        let mut all = Vec::new();
        extend(&mut Vec::new(), len, &mut all);
        all
    };
    (0..=8).map(of).collect()
});

/// All permutations of 0 to `len` - 1, ascending as words: digit by digit, the smaller one first.
pub fn words(len: usize) -> &'static [Vec<u8>] {
    &WORDS[len]
}

/// A pair that is not refused, and the spins before at gperm's reference site; in perm these are all 1.
struct Pair<'a> {
    call: &'a CheckVendor<'a>,
    pattern: Vec<i8>,
}

impl<'a> Pair<'a> {
    fn of(gauged: bool, call: &'a CheckVendor) -> Self {
        let spin = |k: usize| match gauged {
            true => call.before[k * call.n + call.reference],
            false => 1,
        };
        Pair {
            call,
            pattern: (0..call.members).map(spin).collect(),
        }
    }

    fn before(&self, k: usize, i: usize) -> i8 {
        self.call.before[k * self.call.n + i]
    }

    fn after(&self, k: usize, i: usize) -> i8 {
        self.call.after[k * self.call.n + i]
    }

    fn acts(&self, i: usize) -> bool {
        let product = |k: usize| self.pattern[k] * self.before(k, i);
        (1..self.call.members).any(|k| product(k) != product(0))
    }

    fn unchanged(&self, i: usize) -> bool {
        (0..self.call.members).all(|k| self.after(k, i) == self.before(k, i))
    }

    /// Whether the permutation turns before into after at site i.
    fn turns(&self, p: &[u8], i: usize) -> bool {
        p.iter()
            .map(|&from| usize::from(from))
            .enumerate()
            .all(|(k, from)| {
                self.after(k, i) == self.pattern[k] * self.pattern[from] * self.before(from, i)
            })
    }

    /// The sites of each component, by its number: a flood starts from each site that none before has reached.
    fn components(&self) -> Vec<Vec<usize>> {
        let (n, d) = (self.call.n, self.call.d);
        let acting: Vec<bool> = (0..n).map(|i| self.acts(i)).collect();
        let (mut reached, mut all) = (vec![false; n], Vec::new());
        for from in 0..n {
            if reached[from] {
                continue;
            }
            reached[from] = true;
            let (mut sites, mut done) = (vec![from], 0);
            while done < sites.len() {
                let bonds = sites[done] * d..(sites[done] + 1) * d;
                done += 1;
                let ends = self.call.fwd[bonds.clone()]
                    .iter()
                    .chain(&self.call.bwd[bonds]);
                for to in ends.map(|&to| to as usize) {
                    if acting[from] && acting[to] && !reached[to] {
                        reached[to] = true;
                        sites.push(to);
                    }
                }
            }
            all.push(sites);
        }
        all
    }

    /// The component's row, or none where it is at fault.
    fn row(&self, sites: &[usize]) -> Option<&'static [u8]> {
        let all = words(self.call.members);
        let unchanged = sites.iter().all(|&i| self.unchanged(i));
        let held = sites.iter().any(|&i| self.call.pins[i] == 1);
        let first = match self.acts(sites[0]) {
            _ if held && !unchanged => None,
            true => all.iter().find(|p| sites.iter().all(|&i| self.turns(p, i))),
            false => unchanged.then_some(&all[0]),
        };
        first.map(Vec::as_slice)
    }
}

fn length_refused(call: &CheckVendor, fault: usize) -> bool {
    let (bonds, rows) = (call.n * call.d, call.members * call.n);
    call.fwd.len() != bonds
        || call.bwd.len() != bonds
        || call.pins.len() != call.n
        || call.before.len() != rows
        || call.after.len() != rows
        || call.rows.len() != rows
        || fault != 1
}

fn refusal(mode: u8, call: &CheckVendor, fault: usize) -> Option<u8> {
    let [perm, gperm] = [Mode::Perm, Mode::Gperm].map(|known| known as u8 == mode);
    if sizes_refused(call.n, call.d, 1) || !(2..=8).contains(&call.members) || !(perm || gperm) {
        return Some(1);
    }
    if length_refused(call, fault) {
        return Some(2);
    }
    let panel = Panel {
        n: call.n,
        d: call.d,
        s: call.members,
        team: 0,
        owners: &[],
        spins: &[],
        fwd: call.fwd,
        bwd: call.bwd,
        couplings: &[],
    };
    if spins_refused(call.before) || spins_refused(call.after) {
        Some(3)
    } else if tables_refused(panel) || pins_refused(call.pins) {
        Some(4)
    } else if gperm && call.reference >= call.n {
        Some(9)
    } else {
        None
    }
}

/// The number that comes back where this one is lent as the mode: 0 and the rows written, NO and the fault, or a refusal.
pub fn check_vendor(mode: u8, call: CheckVendor, fault: &mut [u32]) -> u8 {
    if let Some(number) = refusal(mode, &call, fault.len()) {
        return number;
    }
    let pair = Pair::of(mode == Mode::Gperm as u8, &call);
    // past the last component too
    let mut rows = words(call.members)[0].repeat(call.n);
    for (number, sites) in pair.components().iter().enumerate() {
        let Some(row) = pair.row(sites) else {
            fault[0] = number as u32;
            return NO;
        };
        rows[number * call.members..][..call.members].copy_from_slice(row);
    }
    call.rows.copy_from_slice(&rows);
    0
}
