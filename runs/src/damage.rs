//! Damaged copies of good calls: one to three faults each, so that the first number in the table's order must win.
use crate::case::{Bonds, Choices, Lent, Packed, Panel, Single, Swept};
use crate::model::LARGEST;
use crate::packed::Layout;
use crate::rand::Rand;
use calls::Coding;

mod steps;
mod vendor;

pub use steps::task;
pub use vendor::vendored;

fn longer_or_shorter<T: Copy + Default>(rand: &mut Rand, buffer: &mut Vec<T>) {
    match rand.once_in(2) {
        true => buffer.push(T::default()),
        false => drop(buffer.pop()),
    }
}

fn set<T: Copy>(rand: &mut Rand, buffer: &mut [T], values: &[T]) {
    if !buffer.is_empty() {
        let at = rand.range(0, buffer.len() - 1);
        buffer[at] = rand.pick(values);
    }
}

fn size(rand: &mut Rand, size: &mut usize, most: usize) {
    let near = [size.wrapping_sub(1), *size + 1];
    let far = [0, most, most + 1, usize::MAX, 1 << 63];
    *size = match rand.once_in(2) {
        true => rand.pick(&near),
        false => rand.pick(&far),
    };
}

/// Two entries of one direction change places: each table alone stays a permutation.
fn crossed(rand: &mut Rand, table: &mut [u32], n: usize, d: usize) {
    if n.checked_mul(d) == Some(table.len()) && n > 0 && d > 0 {
        let along = rand.range(0, d - 1);
        let (i, j) = (rand.range(0, n - 1), rand.range(0, n - 1));
        table.swap(i * d + along, j * d + along);
    }
}

fn table(rand: &mut Rand, table: &mut [u32], n: usize, d: usize) {
    match rand.once_in(2) {
        true => crossed(rand, table, n, d),
        false => {
            let near = rand.range(0, n.min(5000)) as u32;
            set(rand, table, &[n as u32, u32::MAX, 0, near]);
        }
    }
}

/// A byte that is no pin, or one pin too many or too few, or none at all.
fn pins(rand: &mut Rand, pins: &mut Vec<u8>) {
    match rand.range(0, 3) {
        0 => longer_or_shorter(rand, pins),
        1 => pins.clear(),
        _ => {
            let any = rand.range(2, 255) as u8;
            set(rand, pins, &[2, 255, any, any]);
        }
    }
}

/// Another number of systems, half of the time with as many owners, which are tested before it.
fn systems_in_all(rand: &mut Rand, panel: &mut Panel) {
    size(rand, &mut panel.s, 64);
    if rand.once_in(2) && panel.s <= 65 {
        panel.owners.resize(panel.s, panel.team);
    }
}

/// One owner too many or too few, a byte that is no team, or a system that goes to the other; or a team that there is not, or the other one.
fn owners(rand: &mut Rand, panel: &mut Panel) {
    match rand.range(0, 4) {
        0 => longer_or_shorter(rand, &mut panel.owners),
        1 => set(rand, &mut panel.owners, &[2, 3, 128, 255]),
        2 => set(rand, &mut panel.owners, &[0, 1]),
        3 => panel.team = rand.pick(&[2, 3, 255]),
        _ => panel.team ^= 1,
    }
}

fn panel(rand: &mut Rand, panel: &mut Panel, lent: &mut Lent) {
    match rand.range(0, 16) {
        0 => size(rand, &mut panel.n, 4096),
        1 => size(rand, &mut panel.d, 4),
        2 => systems_in_all(rand, panel),
        15 | 16 => owners(rand, panel),
        3 => longer_or_shorter(rand, &mut panel.fwd),
        4 => longer_or_shorter(rand, &mut panel.bwd),
        5 => longer_or_shorter(rand, &mut panel.couplings),
        6 => table(rand, &mut panel.fwd, panel.n, panel.d),
        7 => table(rand, &mut panel.bwd, panel.n, panel.d),
        8 | 9 => set(
            rand,
            &mut panel.couplings,
            &[1_000_001, -1_000_001, i32::MIN, i32::MAX, 1_000_000],
        ),
        10 => panel.coding = rand.pick(&Coding::ALL),
        11 | 12 => pins(rand, &mut panel.pins),
        _ => spins(rand, &mut lent.spins, panel.n),
    }
}

/// A byte that is no spin, in one system, which the call may name or not, or at one site of all.
fn spins(rand: &mut Rand, spins: &mut [i8], n: usize) {
    const FAULTY: [i8; 6] = [0, 2, -2, 127, -128, 3];
    if n == 0 || rand.once_in(2) {
        set(rand, spins, &FAULTY);
    } else {
        let (site, byte) = (rand.range(0, n.min(4096) - 1), rand.pick(&FAULTY));
        let at_site = spins.iter_mut().skip(site).step_by(n);
        at_site.for_each(|spin| *spin = byte);
    }
}

/// A total that is too large, or just not, of one system or of all.
fn totals(rand: &mut Rand, totals: &mut [i64]) {
    let most = LARGEST as i64;
    let values = [most + 1, -most - 1, i64::MIN, i64::MAX, most, -most];
    match rand.once_in(2) {
        true => set(rand, totals, &values),
        false => totals.fill(rand.pick(&values)),
    }
}

fn outputs(rand: &mut Rand, lent: &mut Lent) {
    match rand.range(0, 11) {
        6 => longer_or_shorter(rand, &mut lent.totals),
        7..=9 => totals(rand, &mut lent.totals),
        // a packed call has columns in place of spins
        0 if lent.spins.is_empty() => longer_or_shorter(rand, &mut lent.columns),
        0 => longer_or_shorter(rand, &mut lent.spins),
        1 => longer_or_shorter(rand, &mut lent.labels),
        2 => longer_or_shorter(rand, &mut lent.grey_labels),
        3 => longer_or_shorter(rand, &mut lent.counts),
        4 => longer_or_shorter(rand, &mut lent.sizes),
        10 => longer_or_shorter(rand, &mut lent.found),
        11 => longer_or_shorter(rand, &mut lent.grey_found),
        _ => longer_or_shorter(rand, &mut lent.member_sites),
    }
}

fn choices(rand: &mut Rand, choices: &mut Choices, numbers: bool) {
    let faulty = [
        f32::NAN,
        f32::INFINITY,
        f32::NEG_INFINITY,
        -1.0,
        -f32::from_bits(1),
        -0.0,
    ];
    match rand.range(0, 11) {
        0 => longer_or_shorter(rand, &mut choices.cuts),
        1 => longer_or_shorter(rand, &mut choices.flips),
        2 => longer_or_shorter(rand, &mut choices.perms),
        3 => longer_or_shorter(rand, &mut choices.greys),
        4 | 5 => set(rand, &mut choices.cuts, &faulty),
        6 | 7 => set(rand, &mut choices.flips, &[2, 255, 128]),
        8 | 9 if numbers => set(rand, &mut choices.perms, &[0, 119, 120, 128, 255]),
        8 | 9 => set(rand, &mut choices.perms, &[0, 1, 2, 8, 255]),
        _ => set(rand, &mut choices.greys, &[0, 4, 255, 3]),
    }
}

fn temperatures() -> [f32; 10] {
    let (least, most) = (1.0f32 / 1024.0, 1_048_576.0f32);
    [
        f32::NAN,
        f32::INFINITY,
        0.0,
        -0.0,
        -1.0,
        f32::from_bits(least.to_bits() - 1),
        f32::from_bits(most.to_bits() + 1),
        f32::NEG_INFINITY,
        least,
        most,
    ]
}

fn systems(rand: &mut Rand, systems: &mut [u32], s: usize) {
    let other = rand.range(0, s.clamp(1, 64)) as u32;
    set(rand, systems, &[s as u32, u32::MAX, other, other]);
}

fn reference(rand: &mut Rand, n: usize) -> usize {
    rand.pick(&[n, usize::MAX, 0, 1 << 32])
}

fn seed(rand: &mut Rand, n: usize) -> usize {
    let site = rand.range(0, n.clamp(1, 4096) - 1);
    rand.pick(&[n, usize::MAX, 1 << 32, site, site])
}

pub fn single(rand: &mut Rand, case: &mut Single) {
    for _ in 0..rand.pick(&[1, 1, 2, 3]) {
        let n = case.panel.n;
        match rand.range(0, 9) {
            0..=2 => panel(rand, &mut case.panel, &mut case.lent),
            3 => outputs(rand, &mut case.lent),
            4 | 5 => choices(rand, &mut case.choices, case.panel.numbers()),
            6 => match rand.range(0, 3) {
                0 => longer_or_shorter(rand, &mut case.group),
                1 => case.group = (0..rand.range(0, 10) as u32).collect(),
                _ => systems(rand, &mut case.group, case.panel.s),
            },
            7 => case.temperature = rand.pick(&temperatures()),
            8 => case.reference = reference(rand, n),
            _ => case.seed = seed(rand, n),
        }
    }
}

/// One column too many or too few, a bit from `members` upwards in one of them, which with eight is none, or any byte.
fn columns(rand: &mut Rand, columns: &mut Vec<u8>, members: usize) {
    match rand.range(0, 3) {
        0 => longer_or_shorter(rand, columns),
        1 => set(rand, columns, &[0, 0xff, 0xaa, 0x55, 0x80]),
        _ if columns.is_empty() => {}
        _ => {
            let at = rand.range(0, columns.len() - 1);
            columns[at] |= (1u16 << rand.range(members.min(8), 8)) as u8;
        }
    }
}

pub fn packed(rand: &mut Rand, case: &mut Packed) {
    for _ in 0..rand.pick(&[1, 1, 2, 3]) {
        let n = case.panel.n;
        match rand.range(0, 10) {
            0 | 1 => panel(rand, &mut case.panel, &mut case.lent),
            2 => outputs(rand, &mut case.lent),
            3 | 4 => choices(rand, &mut case.choices, case.panel.numbers()),
            5 => size(rand, &mut case.members, 8),
            6 | 7 => columns(rand, &mut case.lent.columns, case.members),
            8 => case.temperature = rand.pick(&temperatures()),
            9 => case.reference = reference(rand, n),
            _ => case.seed = seed(rand, n),
        }
    }
}

pub fn layout(rand: &mut Rand, case: &mut Layout) {
    for _ in 0..rand.pick(&[1, 1, 2, 3]) {
        match rand.range(0, 5) {
            0 => size(rand, &mut case.n, 4096),
            1 => size(rand, &mut case.members, 8),
            2 => longer_or_shorter(rand, &mut case.rows),
            3 => set(rand, &mut case.rows, &[0, 2, -2, 127, -128, 3, 1, -1]),
            _ => columns(rand, &mut case.columns, case.members),
        }
    }
}

fn sweep_sizes(rand: &mut Rand, case: &mut Swept) {
    match rand.range(0, 6) {
        0 => size(rand, &mut case.t, 64),
        1 => size(rand, &mut case.r, 64),
        2 => size(rand, &mut case.members, 8),
        3 => (case.t, case.r) = (case.r, case.t),
        // all systems, of both teams
        5 => (case.t, case.r) = (1, case.panel.s),
        _ => (case.t, case.r) = ((1 << 63) + 1, 2),
    }
}

fn sweep_lists(rand: &mut Rand, case: &mut Swept) {
    let n = case.panel.n;
    let site = rand.range(0, n.clamp(1, 4096) - 1) as u32;
    match rand.range(0, 12) {
        0 => longer_or_shorter(rand, &mut case.order),
        12 => case.order = (0..case.panel.s.min(65) as u32).collect(),
        1 => longer_or_shorter(rand, &mut case.masks),
        2 => longer_or_shorter(rand, &mut case.temperatures),
        3 => longer_or_shorter(rand, &mut case.references),
        4 => longer_or_shorter(rand, &mut case.seeds),
        5 => systems(rand, &mut case.order, case.panel.s),
        6 => set(rand, &mut case.masks, &[2, 255, 1, 0]),
        7 | 8 => set(rand, &mut case.temperatures, &temperatures()),
        9 => set(rand, &mut case.references, &[n as u32, u32::MAX, 0]),
        _ => set(rand, &mut case.seeds, &[n as u32, u32::MAX, site, site]),
    }
}

pub fn swept(rand: &mut Rand, case: &mut Swept) {
    for _ in 0..rand.pick(&[1, 1, 2, 3]) {
        match rand.range(0, 7) {
            0 | 1 => panel(rand, &mut case.panel, &mut case.lent),
            2 => outputs(rand, &mut case.lent),
            3 | 4 => choices(rand, &mut case.choices, case.panel.numbers()),
            5 => sweep_sizes(rand, case),
            _ => sweep_lists(rand, case),
        }
    }
}

pub fn bonds(rand: &mut Rand, case: &mut Bonds) {
    for _ in 0..rand.pick(&[1, 1, 2, 3]) {
        match rand.range(0, 12) {
            0 => size(rand, &mut case.n, 4096),
            1 => size(rand, &mut case.d, 4),
            2 => longer_or_shorter(rand, &mut case.fwd),
            3 => longer_or_shorter(rand, &mut case.holds),
            4 => longer_or_shorter(rand, &mut case.counted),
            5 => longer_or_shorter(rand, &mut case.lent.labels),
            6 => longer_or_shorter(rand, &mut case.lent.counts),
            7 => longer_or_shorter(rand, &mut case.lent.sizes),
            8 => set(rand, &mut case.fwd, &[case.n as u32, u32::MAX, 0]),
            9 => set(rand, &mut case.holds, &[2, 255, 128, 1]),
            10 => longer_or_shorter(rand, &mut case.lent.found),
            _ => set(rand, &mut case.counted, &[2, 255, 128, 1]),
        }
    }
}
