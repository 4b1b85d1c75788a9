//! Request 14/14: the test of a sweep without the sweep, and a task's three steps. The first is a move that is thrown away but for what it writes
//! beside the spins; the second has nothing but the lists that it is lent, and tells by them what hangs together; the third has nothing but columns.
use super::bonds::{acts, column};
use super::moves::{flip, negate_bits, permuted_by};
use super::refusals::*;
use super::sweeps::sweep_refusal;
use super::totals::{bring, metered, totals_refusal};
use super::{grow, Areas, Done, Panel, Task};
use calls::{Answer, Coding, Form, Mode, Sweep, TaskChoose, TaskLabel, TaskWrite};

/// 0, or what the sweep would be refused with. It is by rows, and nothing is written.
pub fn test_sweep(call: &Sweep) -> u8 {
    sweep_refusal(call).unwrap_or(0)
}

/// The task's own rows: as many systems as members, in their order, and one owner.
fn panel_of_rows<'a>(n: usize, d: usize, members: usize, rows: &'a [i8]) -> Panel<'a> {
    Panel {
        n,
        d,
        s: members,
        team: 0,
        owners: &[0; 8],
        spins: rows,
        fwd: &[],
        bwd: &[],
        couplings: &[],
    }
}

/// Tests 1 and 15, which all three make.
fn shape_refusal(mode: Mode, form: Form, n: usize, d: usize, members: usize) -> Option<u8> {
    if sizes_refused(n, d, 1) || members_refused(mode, members) {
        Some(1)
    } else {
        houd_refused(mode, form, members).then_some(15)
    }
}

/// Only CMR's grow hands over which members are blue.
fn takes_blue(mode: Mode, form: Form) -> bool {
    mode == Mode::Cmr && form == Form::Grow
}

// --- label ---

fn labelled_panel<'a>(call: &'a TaskLabel) -> Panel<'a> {
    Panel {
        fwd: call.fwd,
        bwd: call.bwd,
        couplings: call.couplings,
        ..panel_of_rows(call.n, call.d, call.members, call.rows)
    }
}

fn labelled_task<'a>(call: &'a TaskLabel) -> Task<'a> {
    Task {
        mode: call.mode,
        form: call.form,
        coding: Coding::Rows,
        pins: call.pins,
        group: (0..call.members).collect(),
        temperature: call.temperature,
        cuts: call.cuts,
        reference: call.reference,
        seed: call.seed,
        flips: call.flips,
        perms: call.perms,
        greys: call.greys,
    }
}

fn label_refusal(call: &TaskLabel) -> Option<u8> {
    let TaskLabel { mode, form, .. } = *call;
    let shape = shape_refusal(mode, form, call.n, call.d, call.members);
    if shape.is_some() {
        return shape;
    }
    let exact = lengths(mode, form, call.n, call.d, call.members, 1);
    let (panel, task) = (labelled_panel(call), labelled_task(call));
    if panel_length_refused(panel)
        || own_lengths_differ!(exact, call)
        || (takes_blue(mode, form) && call.blue.len() != call.n)
    {
        return Some(2);
    }
    let temperature = [call.temperature];
    let drawn: &[f32] = if mode.draws() { &temperature } else { &[] };
    panel_refusal(panel, call.pins, &task.group, mode.draws(), drawn)
        .or_else(|| task_refusal(panel, &task, |i| acts(panel, &task, i)))
}

pub fn task_label(call: TaskLabel) -> Answer {
    if let Some(number) = label_refusal(&call) {
        return Answer::Refused(number);
    }
    let (panel, task) = (labelled_panel(&call), labelled_task(&call));
    let done = Done::of(panel, &task);
    let blue = takes_blue(call.mode, call.form).then(|| grow::blue(panel, &task));
    for (to, of) in call.blue.iter_mut().zip(blue.unwrap_or_default()) {
        *to = u8::from(of);
    }
    done.write(Areas {
        labels: call.labels,
        grey_labels: call.grey_labels,
        counts: call.counts,
        sizes: call.sizes,
        member_sites: call.member_sites,
        found: call.found,
        grey_found: call.grey_found,
    });
    done.answer()
}

// --- choose ---

fn choosing_task<'a>(call: &'a TaskChoose) -> Task<'a> {
    Task {
        mode: call.mode,
        form: call.form,
        coding: Coding::Rows,
        pins: call.pins,
        group: (0..call.members).collect(),
        temperature: 1.0,
        cuts: &[],
        reference: call.reference,
        seed: call.seed,
        flips: call.flips,
        perms: call.perms,
        greys: call.greys,
    }
}

/// What the first step found, as far as the second takes it: lists of labels, each with whether it is taken, and lists of marks.
fn taken_lists<'a>(call: &'a TaskChoose) -> ([(bool, &'a [u32]); 2], [(bool, &'a [u8]); 2]) {
    let (grow, labels) = (call.form == Form::Grow, call.form != Form::Observe);
    let (cmr, labels) = (call.mode == Mode::Cmr, labels && !grow);
    (
        [(labels, call.labels), (labels && cmr, call.grey_labels)],
        [(grow, call.member_sites), (grow && cmr, call.blue)],
    )
}

fn choose_length_refused(call: &TaskChoose) -> bool {
    let exact = lengths(call.mode, call.form, call.n, call.d, call.members, 1);
    let (labels, marks) = taken_lists(call);
    call.rows.len() != call.members * call.n
        || call.pins.len() != call.n
        || call.area.len() != call.n
        || differs(exact.flips, call.flips.len())
        || differs(exact.perms, call.perms.len())
        || differs(exact.greys, call.greys.len())
        || labels.iter().any(|(of, list)| *of && list.len() != call.n)
        || marks.iter().any(|(of, list)| *of && list.len() != call.n)
}

fn choose_refusal(call: &TaskChoose) -> Option<u8> {
    let shape = shape_refusal(call.mode, call.form, call.n, call.d, call.members);
    if shape.is_some() {
        return shape;
    }
    if choose_length_refused(call) {
        return Some(2);
    }
    let panel = panel_of_rows(call.n, call.d, call.members, call.rows);
    let (labels, marks) = taken_lists(call);
    let outside = |list: &[u32]| list.iter().any(|&label| label as usize >= call.n);
    let no_mark = |list: &[u8]| list.iter().any(|&mark| mark > 1);
    if spins_refused(call.rows) {
        Some(3)
    } else if pins_refused(call.pins) {
        Some(4)
    } else if choices_refused(panel, &choosing_task(call))
        || labels.iter().any(|(of, list)| *of && outside(list))
        || marks.iter().any(|(of, list)| *of && no_mark(list))
    {
        Some(9)
    } else {
        (call.form.one_cluster() && call.seed >= call.n).then_some(10)
    }
}

/// The choice of site i, by a list that tells what hangs together: where it stands, if there is one. Labels and marks are both numbers here.
fn place(call: &TaskChoose, list: &[u32], i: usize) -> Option<usize> {
    let alike = || (0..call.n).filter(|&j| list[j] == list[i]);
    let least = if call.mode.permutes() { 1 } else { 2 };
    let at = match call.form {
        Form::Sw => (alike().count() >= least).then_some(list[i] as usize),
        Form::Wolff => (list[i] == list[call.seed]).then_some(0),
        Form::Grow => (list[i] == 1).then_some(0),
        Form::Observe => None,
    };
    at.filter(|_| !alike().any(|j| call.pins[j] == 1))
}

/// The spins of site i after the move.
fn chosen(call: &TaskChoose, first: &[u32], second: &[u32], i: usize) -> Vec<i8> {
    let panel = panel_of_rows(call.n, call.d, call.members, call.rows);
    let task = choosing_task(call);
    let old = column(panel, &task.group, i);
    if call.form == Form::Observe || !acts(panel, &task, i) {
        return old;
    }
    let at = place(call, first, i);
    if call.mode.permutes() {
        let row = |at: usize| &call.perms[at * call.members..(at + 1) * call.members];
        return at.map_or(old, |at| permuted_by(panel, &task, row(at), i));
    }
    let mut spins = old;
    if at.is_some_and(|at| call.form != Form::Sw || call.flips[at] == 1) {
        flip(call.mode, &mut spins);
    }
    if call.mode == Mode::Cmr {
        let grey = place(call, second, i).map_or(0, |at| call.greys[at]);
        negate_bits(grey, &mut spins);
    }
    spins
}

/// The columns are made at all sites, of grow at the members.
fn has_column(form: Form, member_sites: &[u8], i: usize) -> bool {
    form != Form::Grow || member_sites[i] == 1
}

pub fn task_choose(call: TaskChoose) -> u8 {
    if let Some(number) = choose_refusal(&call) {
        return number;
    }
    let wide = |marks: &[u8]| -> Vec<u32> { marks.iter().map(|&mark| u32::from(mark)).collect() };
    let (first, second) = match (call.form, call.mode) {
        (Form::Grow, Mode::Cmr) => (wide(call.blue), wide(call.member_sites)),
        (Form::Grow, _) => (wide(call.member_sites), Vec::new()),
        _ => (call.labels.to_vec(), call.grey_labels.to_vec()),
    };
    for i in (0..call.n).filter(|&i| has_column(call.form, call.member_sites, i)) {
        let spins = chosen(&call, &first, &second, i);
        let bits = spins.iter().enumerate().filter(|(_, &spin)| spin == 1);
        call.area[i] = bits.map(|(k, _)| 1 << k).sum();
    }
    0
}

// --- write ---

fn write_refusal(call: &TaskWrite) -> Option<u8> {
    let shape = shape_refusal(call.mode, call.form, call.n, call.d, call.members);
    if shape.is_some() {
        return shape;
    }
    let (keeping, grow) = (call.keeps.totals(call.form), call.form == Form::Grow);
    let bonds = call.n * call.d;
    let tables = [call.fwd.len(), call.bwd.len(), call.couplings.len()];
    if call.rows.len() != call.members * call.n
        || call.area.len() != call.n
        || (grow && call.member_sites.len() != call.n)
        || (keeping && (tables != [bonds; 3] || call.totals.len() != call.members))
    {
        return Some(2);
    }
    let panel = Panel {
        fwd: call.fwd,
        bwd: call.bwd,
        ..panel_of_rows(call.n, call.d, call.members, call.rows)
    };
    let high = |i: &usize| usize::from(call.area[*i]) >= 1 << call.members;
    let mut sites = (0..call.n).filter(|&i| has_column(call.form, call.member_sites, i));
    let members: Vec<usize> = (0..call.members).collect();
    if spins_refused(call.rows) || sites.any(|i| high(&i)) {
        Some(3)
    } else if keeping && tables_refused(panel) {
        Some(4)
    } else if keeping && coupling_refused(call.couplings) {
        Some(6)
    } else if grow && call.member_sites.iter().any(|&mark| mark > 1) {
        Some(9)
    } else {
        totals_refusal(keeping, call.totals, &members)
    }
}

pub fn task_write(call: TaskWrite) -> u8 {
    if let Some(number) = write_refusal(&call) {
        return number;
    }
    let (keeping, n) = (call.keeps.totals(call.form), call.n);
    let members: Vec<usize> = (0..call.members).collect();
    let energies = |rows: &[i8]| {
        let panel = Panel {
            fwd: call.fwd,
            couplings: call.couplings,
            ..panel_of_rows(n, call.d, call.members, rows)
        };
        metered(keeping, panel, &members)
    };
    let before = energies(call.rows);
    for (at, spin) in call.rows.iter_mut().enumerate() {
        let (k, i) = (at / n, at % n);
        if has_column(call.form, call.member_sites, i) {
            *spin = if call.area[i] >> k & 1 == 1 { 1 } else { -1 };
        }
    }
    let after = energies(call.rows);
    bring(call.totals, &members, &before, &after);
    0
}
