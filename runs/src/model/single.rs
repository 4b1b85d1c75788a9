//! A single move: its task and its refusals.
use super::bonds::acts;
use super::refusals::*;
use super::teams::owners_refused;
use super::totals::{totals_length_refused, totals_refusal};
use super::{systems, Task};
use calls::Step;

pub fn single_task<'a>(call: &'a Step) -> Task<'a> {
    task_of!(call, systems(call.group))
}

fn single_length_refused(call: &Step) -> bool {
    let members = call.group.len();
    let exact =
        lengths(call.mode, call.form, call.n, call.d, members, 1).spelt(call.coding, members);
    panel_length_refused(panel_of!(call)) || own_lengths_differ!(exact, call)
}

pub fn single_refusal(call: &Step) -> Option<u8> {
    let (draws, keeping) = (call.mode.draws(), call.keeps.totals(call.form));
    let panel = panel_of!(call);
    let members = call.group.len();
    if let Some(number) = owners_refused(panel) {
        return Some(number);
    }
    if sizes_refused(call.n, call.d, call.s)
        || members_refused(call.mode, members)
        || coding_refused(call.coding.numbers(call.mode, call.form), members)
    {
        return Some(1);
    }
    if houd_refused(call.mode, call.form, members) {
        return Some(15);
    }
    if single_length_refused(call) || totals_length_refused(keeping, panel, call.totals) {
        return Some(2);
    }
    let temperature = [call.temperature];
    let drawn: &[f32] = if draws { &temperature } else { &[] };
    let task = single_task(call);
    panel_refusal(panel, call.pins, &task.group, draws || keeping, drawn)
        .or_else(|| task_refusal(panel, &task, |i| acts(panel, &task, i)))
        .or_else(|| totals_refusal(keeping, call.totals, &task.group))
}
