//! Moves of which a known share of the sites moves, in one piece, and the same moves where they keep totals (6/14).
use super::{panel, single_on, N};
use crate::case::Single;
use crate::model::{energies, LARGEST};
use crate::rand::Rand;
use calls::{Form, Keeps, Mode};

/// The sites that move.
#[derive(Clone, Copy, PartialEq)]
pub enum Share {
    Ten,
    Hundredth,
    Quarter,
    All,
}

impl Share {
    pub const ALL: [Share; 3] = [Share::Hundredth, Share::Quarter, Share::All];

    /// The last site is gperm's reference, which never acts.
    pub fn has(self, mode: Mode, d: usize, site: usize) -> bool {
        let side: usize = if d == 2 { 64 } else { 16 };
        let [x, y, z] = [0, 1, 2].map(|along| site / side.pow(along) % side);
        match (self, d) {
            (Share::Ten, _) => x < 5 && y < 2 && z < 1,
            (Share::Hundredth, 2) => x < 7 && y < 6,
            (Share::Hundredth, _) => x < 4 && y < 3 && z < 3,
            (Share::Quarter, 2) => x < 32 && y < 32,
            (Share::Quarter, _) => z < 4,
            (Share::All, _) => mode != Mode::Gperm || site + 1 < N,
        }
    }

    pub fn name(self) -> &'static str {
        match self {
            Share::Ten => "ten sites",
            Share::Hundredth => "1 %",
            Share::Quarter => "a quarter",
            Share::All => "all",
        }
    }
}

/// Every replica of a site that moves changes: there the spins of neighbours in the group differ, elsewhere all agree. In CMR all agree
/// everywhere, and what moves is one blue component.
fn spins(rand: &mut Rand, mode: Mode, members: usize, moves: &[bool]) -> Vec<i8> {
    let base: Vec<i8> = (0..N).map(|_| rand.pick(&[1, -1])).collect();
    let differ = |k: usize, i: usize| mode != Mode::Cmr && moves[i] && k % 2 == 1;
    (0..members * N)
        .map(|at| (at / N, at % N))
        .map(|(k, i)| if differ(k, i) { -base[i] } else { base[i] })
        .collect()
}

/// A move in two directions or in three, S = N, which keeps nothing.
pub fn piece(
    rand: &mut Rand,
    (mode, form): (Mode, Form),
    d: usize,
    members: usize,
    share: Share,
) -> Single {
    let moves: Vec<bool> = (0..N).map(|site| share.has(mode, d, site)).collect();
    let mut panel = panel(rand, mode, form, d, members);
    let spins = spins(rand, mode, members, &moves);
    if mode.draws() {
        // bonds hold inside the piece, and in CMR nowhere else
        for (bond, coupling) in panel.couplings.iter_mut().enumerate() {
            let (i, j) = (bond / d, panel.fwd[bond] as usize);
            let sign = if moves[i] && moves[j] { 1 } else { -1 };
            *coupling = sign * i32::from(spins[i] * spins[j]);
        }
    }
    let mut case = single_on(rand, panel, members, spins);
    (case.temperature, case.reference) = (0.01, N - 1);
    case.seed = moves.iter().position(|&moves| moves).unwrap();
    case.choices.flips.fill(1);
    // a rotation by one place leaves nothing there; the grey number leaves it to blue, but may not be 0 where one cluster moves
    let rotated = |at: usize| ((at + 1) % members) as u8;
    case.choices.perms = (0..case.choices.perms.len()).map(rotated).collect();
    case.choices.greys.fill(u8::from(form.one_cluster()));
    case
}

/// The same move, which keeps the totals that are right.
pub fn kept(case: &Single) -> Single {
    let mut case = case.clone();
    case.panel.keeps = Keeps::Totals;
    case.lent.totals = energies(&case.panel, &case.lent.spins);
    case
}

/// A move that keeps totals refused by its last test, so that its time is that of the tests.
pub fn refused_kept(case: &Single) -> Single {
    let mut case = case.clone();
    *case.lent.totals.last_mut().unwrap() = LARGEST as i64 + 1;
    case
}

/// Its meter refused by the last test.
pub fn refused_meter(case: &Single) -> Single {
    let mut case = case.clone();
    *case.panel.couplings.last_mut().unwrap() = 1_000_001;
    case
}

/// The energies of the group's systems, summed up by a plain loop.
pub fn plain_energies(case: &Single) -> i64 {
    let rows = case.lent.spins.chunks(N);
    rows.map(|row| super::plain_energy(&case.panel, row)).sum()
}
