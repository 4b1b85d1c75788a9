//! Request 6/14 by plain metering: the energy of every system that a call names before it and after it.
use super::refusals::*;
use super::teams::owners_refused;
use super::Panel;
use calls::{HandOver, Meter, MeterAnswer};

/// No energy is larger: 16,384 bonds of at most 1,000,000 each.
pub const LARGEST: u64 = 16_384_000_000;

pub fn energy(panel: Panel, system: usize) -> i64 {
    let row = &panel.spins[system * panel.n..(system + 1) * panel.n];
    let sum: i64 = (0..panel.n * panel.d)
        .map(|bond| {
            let ends = row[bond / panel.d] * row[panel.fwd[bond] as usize];
            i64::from(panel.couplings[bond]) * i64::from(ends)
        })
        .sum();
    -sum
}

/// The energy of each of these systems; none where totals are not kept.
pub fn metered(keeping: bool, panel: Panel, systems: &[usize]) -> Vec<i64> {
    let kept = systems.iter().filter(|_| keeping);
    kept.map(|&system| energy(panel, system)).collect()
}

/// The total of each of these systems changes by its energy after the call less its energy before.
pub fn bring(totals: &mut [i64], systems: &[usize], before: &[i64], after: &[i64]) {
    for ((&system, before), after) in systems.iter().zip(before).zip(after) {
        totals[system] += after - before;
    }
}

pub fn totals_length_refused(keeping: bool, panel: Panel, totals: &[i64]) -> bool {
    keeping && (panel.couplings.len() != panel.n * panel.d || totals.len() != panel.s)
}

/// Test 14 of a call that keeps totals, over the systems that it names, which are its caller's own where the tests come so far.
pub fn totals_refusal(keeping: bool, totals: &[i64], named: &[usize]) -> Option<u8> {
    let large = |&system: &usize| totals[system].unsigned_abs() > LARGEST;
    (keeping && named.iter().any(large)).then_some(14)
}

/// The tests of the meter and of the hand-over, which take couplings and draw nothing.
fn meter_refusal(panel: Panel, systems: &[usize], long: bool) -> Option<u8> {
    if let Some(number) = owners_refused(panel) {
        Some(number)
    } else if sizes_refused(panel.n, panel.d, panel.s) {
        Some(1)
    } else if panel_length_refused(panel) || panel.couplings.len() != panel.n * panel.d || !long {
        Some(2)
    } else {
        panel_refusal(panel, &[], systems, true, &[])
    }
}

pub fn meter(call: &Meter) -> MeterAnswer {
    let panel = panel_of!(call);
    match meter_refusal(panel, &[call.system], true) {
        Some(number) => MeterAnswer::Refused(number),
        None => MeterAnswer::Energy(energy(panel, call.system)),
    }
}

/// It names no system, and is of all that are the caller's.
pub fn handed_over(call: &HandOver) -> u8 {
    let panel = panel_of!(call);
    let own = panel.own_systems();
    let wrong = |&system: &usize| energy(panel, system) != call.totals[system];
    meter_refusal(panel, &own, call.totals.len() == call.s)
        .or_else(|| own.iter().any(wrong).then_some(14))
        .unwrap_or(0)
}
