//! A sweep: its tasks and its refusals.
use super::bonds::acts;
use super::refusals::*;
use super::teams::owners_refused;
use super::totals::{totals_length_refused, totals_refusal};
use super::{systems, Task};
use calls::Sweep;

fn part<T>(buffer: &[T], task: usize, length: usize) -> &[T] {
    &buffer[task * length..(task + 1) * length]
}

/// A task's part of a buffer that the call takes; nothing of one that it does not.
fn taken<T>(wanted: Option<usize>, buffer: &[T], task: usize) -> &[T] {
    match wanted {
        Some(length) => part(buffer, task, length),
        None => &[],
    }
}

pub fn sweep_task<'a>(call: &'a Sweep, number: usize) -> Task<'a> {
    let groups = call.r / call.members;
    let (j, g) = (number / groups, number % groups);
    let each = lengths(call.mode, call.form, call.n, call.d, call.members, 1)
        .spelt(call.coding, call.members);
    let from = j * call.r + g * call.members;
    let first = |numbers: &[u32]| numbers.first().map_or(0, |&number| number as usize);
    Task {
        mode: call.mode,
        form: call.form,
        coding: call.coding,
        pins: call.pins,
        group: systems(&call.order[from..from + call.members]),
        temperature: if call.mode.draws() {
            call.temperatures[j]
        } else {
            1.0
        },
        cuts: taken(each.cuts, call.cuts, number),
        reference: first(taken(each.references, call.references, number)),
        seed: first(taken(each.seeds, call.seeds, number)),
        flips: taken(each.flips, call.flips, number),
        perms: taken(each.perms, call.perms, number),
        greys: taken(each.greys, call.greys, number),
    }
}

fn sweep_length_refused(call: &Sweep) -> bool {
    let tasks = call.t * (call.r / call.members);
    let exact = lengths(call.mode, call.form, call.n, call.d, call.members, tasks)
        .spelt(call.coding, call.members);
    panel_length_refused(panel_of!(call))
        || own_lengths_differ!(exact, call)
        || call.order.len() != call.t * call.r
        || call.masks.len() != call.t
        || (call.mode.draws() && call.temperatures.len() != call.t)
        || differs(exact.references, call.references.len())
        || differs(exact.seeds, call.seeds.len())
}

/// The unmasked tasks in ascending order.
pub fn unmasked(call: &Sweep) -> Vec<usize> {
    let groups = call.r / call.members;
    (0..call.t * groups)
        .filter(|task| call.masks[task / groups] == 0)
        .collect()
}

pub fn sweep_refusal(call: &Sweep) -> Option<u8> {
    let (draws, keeping) = (call.mode.draws(), call.keeps.totals(call.form));
    let panel = panel_of!(call);
    if let Some(number) = owners_refused(panel) {
        return Some(number);
    }
    // a sweep is over all systems of its team
    let all = call.t as u128 * call.r as u128;
    if sizes_refused(call.n, call.d, call.s)
        || members_refused(call.mode, call.members)
        || coding_refused(call.coding.numbers(call.mode, call.form), call.members)
        || all != panel.own_systems().len() as u128
        || call.t < 1
        || call.r < 1
        || call.members > call.r
    {
        return Some(1);
    }
    if houd_refused(call.mode, call.form, call.members) {
        return Some(15);
    }
    if sweep_length_refused(call) || totals_length_refused(keeping, panel, call.totals) {
        return Some(2);
    }
    let drawn = if draws { call.temperatures } else { &[] };
    let named = systems(call.order);
    panel_refusal(panel, call.pins, &named, draws || keeping, drawn)
        .or_else(|| call.masks.iter().any(|&mask| mask > 1).then_some(9))
        .or_else(|| {
            let refusal = |&number: &usize| {
                let task = sweep_task(call, number);
                task_refusal(panel, &task, |i| acts(panel, &task, i))
            };
            unmasked(call).iter().find_map(refusal)
        })
        .or_else(|| totals_refusal(keeping, call.totals, &named))
}
