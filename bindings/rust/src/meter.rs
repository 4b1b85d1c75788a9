//! The meter, and totals that start from it. Each pointer goes with the length of the slice that it was taken from, and the slice
//! that is written overlaps no other.
use crate::answers::Refusal;
use crate::calls::{Energy, HandOver, MeterAll};
use crate::foreign::{tsorvenk_energy, tsorvenk_hand_over};
use crate::safe::bytes_or_zeros;

/// The energy of one system: minus the sum over all n * d bonds of the coupling times both spins.
///
/// ```
/// use tsorvenk::{energy, Energy, Refusal};
///
/// // a ring of three
/// let ring = Energy {
///     n: 3,
///     d: 1,
///     s: 1,
///     spins: &[1, 1, -1],
///     fwd: &[1, 2, 0],
///     bwd: &[2, 0, 1],
///     couplings: &[1, 2, -3],
///     ..Default::default()
/// };
/// assert_eq!(energy(ring), Ok(-2));
/// assert_eq!(energy(Energy { system: 1, ..ring }), Err(Refusal { number: 5 }));
/// ```
#[inline]
#[rustfmt::skip]
pub fn energy(call: Energy) -> Result<i64, Refusal> {
    let owners = bytes_or_zeros(call.owners, call.s);
    let mut energy = [0i64];
    let number = unsafe {
        tsorvenk_energy(
            call.n, call.d, call.s, call.team, owners.as_ptr(), owners.len(), call.spins.as_ptr(), call.spins.len(),
            call.fwd.as_ptr(), call.fwd.len(), call.bwd.as_ptr(), call.bwd.len(),
            call.couplings.as_ptr(), call.couplings.len(), call.system, energy.as_mut_ptr(), energy.len(),
        )
    };
    match number {
        0 => Ok(energy[0]),
        number => Err(Refusal { number }),
    }
}

/// The energy of every system of the team into `totals`, where a day that keeps them starts.
///
/// Refused as a hand-over is, but for 14: 1, 2, 3, 4 or 6, in this order, those of the owners before them, and then nothing is
/// written.
///
/// ```
/// use tsorvenk::{hand_over, meter_all, step, Form, HandOver, Keeps, MeterAll, Mode, Refusal, Step, Stepped};
///
/// // a ring of three, and two systems that differ at its first site
/// let (fwd, bwd, couplings) = (&[1, 2, 0], &[2, 0, 1], &[1, 2, -3]);
/// let (mut spins, mut totals) = ([1, 1, 1, -1, 1, 1], [0; 2]);
/// let all = MeterAll { n: 3, d: 1, s: 2, spins: &spins, totals: &mut totals, fwd, bwd, couplings, ..Default::default() };
/// meter_all(all)?;
/// assert_eq!(totals, [0, -4]);
/// let mut member_sites = [0; 3];
/// let stepped = step(Step {
///     mode: Mode::Pair,
///     form: Form::Grow,
///     keeps: Keeps::Totals,
///     n: 3,
///     d: 1,
///     s: 2,
///     spins: &mut spins,
///     totals: &mut totals,
///     fwd,
///     bwd,
///     couplings,
///     group: &[0, 1],
///     member_sites: &mut member_sites,
///     ..Default::default()
/// })?;
/// assert_eq!((stepped, totals), (Stepped::Moved, [-4, 0]));
/// let handed = HandOver { n: 3, d: 1, s: 2, spins: &spins, totals: &totals, fwd, bwd, couplings, ..Default::default() };
/// assert_eq!(hand_over(handed), Ok(()));
/// assert_eq!(hand_over(HandOver { totals: &[-4, 1], ..handed }), Err(Refusal { number: 14 }));
/// # Ok::<(), Refusal>(())
/// ```
#[rustfmt::skip]
pub fn meter_all(call: MeterAll) -> Result<(), Refusal> {
    let MeterAll { n, d, s, team, owners, spins, totals, fwd, bwd, couplings } = call;
    // the hand-over makes every test there is, and where it comes to its last one nothing else is refused
    match hand_over(HandOver { n, d, s, team, owners, spins, totals, fwd, bwd, couplings }) {
        Err(Refusal { number: 14 }) => {}
        other => return other,
    }
    let owners = bytes_or_zeros(owners, s);
    for (system, total) in totals.iter_mut().enumerate().filter(|(system, _)| owners[*system] == team) {
        *total = energy(Energy { n, d, s, team, owners: Some(owners), spins, fwd, bwd, couplings, system })?;
    }
    Ok(())
}

/// Whether the total of each of the team's systems is its energy: asked once, before the first call that keeps totals. The example
/// of [`meter_all`] asks it at the end too.
#[inline]
#[rustfmt::skip]
pub fn hand_over(call: HandOver) -> Result<(), Refusal> {
    let owners = bytes_or_zeros(call.owners, call.s);
    let number = unsafe {
        tsorvenk_hand_over(
            call.n, call.d, call.s, call.team, owners.as_ptr(), owners.len(),
            call.spins.as_ptr(), call.spins.len(), call.totals.as_ptr(), call.totals.len(),
            call.fwd.as_ptr(), call.fwd.len(), call.bwd.as_ptr(), call.bwd.len(),
            call.couplings.as_ptr(), call.couplings.len(),
        )
    };
    match number {
        0 => Ok(()),
        number => Err(Refusal { number }),
    }
}
