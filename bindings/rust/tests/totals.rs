//! What a caller who keeps totals may rely on: they start from the meter, follow the moves, are left by what is refused and by
//! what keeps nothing, and 14 is the last refusal.
use tsorvenk::*;

const MOST: i64 = 16_384_000_000;

/// A ring of three with couplings, and two systems that differ at its first site: their energies are 0 and -4.
#[derive(Clone, Debug, PartialEq)]
struct Ring {
    spins: Vec<i8>,
    totals: Vec<i64>,
    couplings: Vec<i32>,
    fwd: Vec<u32>,
    member_sites: [u8; 3],
}

fn ring(totals: &[i64]) -> Ring {
    Ring {
        spins: vec![1, 1, 1, -1, 1, 1],
        totals: totals.to_vec(),
        couplings: vec![1, 2, -3],
        fwd: vec![1, 2, 0],
        member_sites: [9; 3],
    }
}

impl Ring {
    fn meter_all(&mut self) -> Result<(), Refusal> {
        meter_all(MeterAll {
            n: 3,
            d: 1,
            s: 2,
            spins: &self.spins,
            totals: &mut self.totals,
            fwd: &self.fwd,
            bwd: &[2, 0, 1],
            couplings: &self.couplings,
            ..Default::default()
        })
    }

    fn hand_over(&self) -> Result<(), Refusal> {
        hand_over(HandOver {
            n: 3,
            d: 1,
            s: 2,
            spins: &self.spins,
            totals: &self.totals,
            fwd: &self.fwd,
            bwd: &[2, 0, 1],
            couplings: &self.couplings,
            ..Default::default()
        })
    }

    fn grow(&mut self, keeps: Keeps, seed: usize) -> Result<Stepped, Refusal> {
        step(Step {
            mode: Mode::Pair,
            form: Form::Grow,
            keeps,
            n: 3,
            d: 1,
            s: 2,
            spins: &mut self.spins,
            totals: &mut self.totals,
            fwd: &self.fwd,
            bwd: &[2, 0, 1],
            couplings: &self.couplings,
            group: &[0, 1],
            seed,
            member_sites: &mut self.member_sites,
            ..Default::default()
        })
    }

    fn sweep(&mut self, keeps: Keeps, seed: u32) -> Result<Swept, Refusal> {
        sweep(Sweep {
            mode: Mode::Pair,
            form: Form::Grow,
            keeps,
            n: 3,
            d: 1,
            s: 2,
            t: 1,
            r: 2,
            members: 2,
            spins: &mut self.spins,
            totals: &mut self.totals,
            fwd: &self.fwd,
            bwd: &[2, 0, 1],
            couplings: &self.couplings,
            order: &[0, 1],
            masks: &[0],
            seeds: &[seed],
            member_sites: &mut self.member_sites,
            ..Default::default()
        })
    }
}

fn refusal<T>(number: u8) -> Result<T, Refusal> {
    Err(Refusal { number })
}

#[test]
fn totals_start_from_the_meter_and_follow() {
    let mut ring = ring(&[7, 7]);
    assert_eq!(ring.hand_over(), refusal(14));
    assert_eq!(ring.meter_all(), Ok(()));
    assert_eq!(
        (ring.totals.as_slice(), ring.hand_over()),
        (&[0, -4][..], Ok(()))
    );
    assert_eq!(ring.grow(Keeps::Totals, 0), Ok(Stepped::Moved));
    assert_eq!(
        (ring.totals.as_slice(), ring.hand_over()),
        (&[-4, 0][..], Ok(()))
    );
    let swept = ring.sweep(Keeps::Totals, 0).unwrap();
    assert_eq!((swept.idle, swept.moved), (0, 1));
    assert_eq!(
        (ring.totals.as_slice(), ring.hand_over()),
        (&[0, -4][..], Ok(()))
    );
}

#[test]
fn a_call_that_keeps_nothing_leaves_what_is_lent() {
    for totals in [vec![], vec![i64::MAX], vec![5, 6]] {
        let mut ring = ring(&totals);
        ring.couplings.push(i32::MAX);
        assert_eq!(ring.grow(Keeps::Nothing, 0), Ok(Stepped::Moved));
        assert_eq!(
            ring.sweep(Keeps::Nothing, 0).map(|swept| swept.moved),
            Ok(1)
        );
        assert_eq!(ring.totals, totals);
    }
    assert_eq!(Keeps::default(), Keeps::Nothing);
    assert_eq!(Keeps::ALL.map(|keeps| keeps as u8), [0, 1]);
}

/// Refused with this number, move, sweep and hand-over alike, and every buffer is as it was.
fn refused(ring: &Ring, seed: usize, number: u8) {
    let mut after = ring.clone();
    assert_eq!(after.grow(Keeps::Totals, seed), refusal(number));
    assert_eq!(after.sweep(Keeps::Totals, seed as u32), refusal(number));
    assert_eq!(&after, ring);
}

#[test]
fn fourteen_is_the_last_refusal() {
    let mut ring = ring(&[MOST + 1, 0, 0]);
    (ring.couplings[2], ring.fwd[0], ring.spins[0]) = (-1_000_001, 3, 0);
    refused(&ring, 1, 2);
    ring.totals.pop();
    refused(&ring, 1, 3);
    ring.spins[0] = 1;
    refused(&ring, 1, 4);
    ring.fwd[0] = 1;
    refused(&ring, 1, 6);
    ring.couplings[2] = -3;
    refused(&ring, 1, 10);
    refused(&ring, 0, 14);
    ring.totals = vec![0, -MOST - 1];
    refused(&ring, 0, 14);
    ring.totals = vec![MOST, -MOST];
    assert_eq!(ring.grow(Keeps::Totals, 0), Ok(Stepped::Moved));
    assert_eq!(ring.totals, [MOST - 4, 4 - MOST]);
}

/// The meter of all systems and the hand-over are refused in one order, and the meter then writes nothing.
#[test]
fn a_start_is_refused_in_order() {
    let mut ring = ring(&[5, 6, 7]);
    (ring.couplings[2], ring.fwd[0], ring.spins[0]) = (1_000_001, 3, 0);
    let start = |ring: &Ring, number: u8| {
        let mut after = ring.clone();
        assert_eq!(after.meter_all(), refusal(number));
        assert_eq!(after.hand_over(), refusal(number));
        assert_eq!(&after, ring);
    };
    start(&ring, 2);
    ring.totals.pop();
    start(&ring, 3);
    ring.spins[0] = 1;
    start(&ring, 4);
    ring.fwd[0] = 1;
    start(&ring, 6);
    ring.couplings.pop();
    start(&ring, 2);
    let (number, none) = (1, &mut [][..]);
    assert_eq!(meter_all(MeterAll::default()), Err(Refusal { number }));
    let many = MeterAll {
        n: 1,
        d: 1,
        s: 65,
        totals: none,
        ..Default::default()
    };
    assert_eq!(meter_all(many), Err(Refusal { number }));
    assert_eq!(hand_over(HandOver::default()), Err(Refusal { number }));
}
