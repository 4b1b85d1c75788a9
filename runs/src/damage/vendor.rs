//! Faults in what the check of a vendor's moves is lent.
use super::{longer_or_shorter, pins, reference, size, spins, table};
use crate::rand::Rand;
use crate::vendor::Vendored;

fn buffers(rand: &mut Rand, case: &mut Vendored) {
    match rand.range(0, 5) {
        0 => longer_or_shorter(rand, &mut case.fwd),
        1 => longer_or_shorter(rand, &mut case.bwd),
        2 => longer_or_shorter(rand, &mut case.before),
        3 => longer_or_shorter(rand, &mut case.after),
        4 => longer_or_shorter(rand, &mut case.rows),
        _ => longer_or_shorter(rand, &mut case.fault),
    }
}

pub fn vendored(rand: &mut Rand, case: &mut Vendored) {
    for _ in 0..rand.pick(&[1, 1, 2, 3]) {
        let (n, d) = (case.n, case.d);
        match rand.range(0, 12) {
            0 => size(rand, &mut case.n, 4096),
            1 => size(rand, &mut case.d, 4),
            2 => size(rand, &mut case.members, 8),
            3 => case.mode = rand.pick(&[0, 1, 2, 3, 4, 5, 6, 7, 64, 255]),
            4 | 5 => buffers(rand, case),
            6 => spins(rand, &mut case.before, n),
            7 => spins(rand, &mut case.after, n),
            8 => table(rand, &mut case.fwd, n, d),
            9 => table(rand, &mut case.bwd, n, d),
            10 | 11 => pins(rand, &mut case.pins),
            _ => case.reference = reference(rand, n),
        }
    }
}
