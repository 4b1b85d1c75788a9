//! The refusal tests, each by itself; the calls ask them in the order of their numbers, but for 15, which stands behind 1, and behind those of the
//! owners.
use super::{Panel, Task};
use calls::{Coding, Form, Mode};

pub fn sizes_refused(n: usize, d: usize, s: usize) -> bool {
    !(1..=4096).contains(&n) || !(1..=4).contains(&d) || !(1..=64).contains(&s)
}

pub fn members_refused(mode: Mode, members: usize) -> bool {
    !(2..=8).contains(&members) || (mode == Mode::Cmr && members != 2)
}

/// Request 10/14: a move of more than two by houd changes the group's energy. To observe moves nothing.
pub fn houd_refused(mode: Mode, form: Form, members: usize) -> bool {
    let moves = matches!(form, Form::Sw | Form::Wolff | Form::Grow);
    mode == Mode::Houd && moves && members > 2
}

/// Numbers are those of the permutations of five.
pub fn coding_refused(numbers: bool, members: usize) -> bool {
    numbers && members != 5
}

pub fn panel_length_refused(panel: Panel) -> bool {
    panel.spins.len() != panel.s * panel.n
        || panel.fwd.len() != panel.n * panel.d
        || panel.bwd.len() != panel.n * panel.d
}

pub fn spins_refused(spins: &[i8]) -> bool {
    spins.iter().any(|&spin| spin != 1 && spin != -1)
}

/// Of the systems that a call names test 3 looks at those that are its caller's own (12/14).
pub fn rows_refused(panel: Panel, named: &[usize]) -> bool {
    let row = |&system: &usize| &panel.spins[system * panel.n..(system + 1) * panel.n];
    let mut own = named.iter().filter(|&&system| panel.own(system)).map(row);
    own.any(spins_refused)
}

pub fn tables_refused(panel: Panel) -> bool {
    let at = |table: &[u32], i: usize, d: usize| table[i * panel.d + d] as usize;
    let outside = |table: &[u32]| table.iter().any(|&site| site as usize >= panel.n);
    if outside(panel.fwd) || outside(panel.bwd) {
        return true;
    }
    (0..panel.n * panel.d).any(|bond| {
        let (i, d) = (bond / panel.d, bond % panel.d);
        at(panel.bwd, at(panel.fwd, i, d), d) != i || at(panel.fwd, at(panel.bwd, i, d), d) != i
    })
}

pub fn pins_refused(pins: &[u8]) -> bool {
    pins.iter().any(|&pin| pin != 0 && pin != 1)
}

/// A system is one below s that is the caller's own, and stands once.
pub fn systems_refused(panel: Panel, systems: &[usize]) -> bool {
    systems.iter().enumerate().any(|(k, &system)| {
        system >= panel.s || !panel.own(system) || systems[..k].contains(&system)
    })
}

pub fn coupling_refused(couplings: &[i32]) -> bool {
    couplings
        .iter()
        .any(|&coupling| !(-1_000_000..=1_000_000).contains(&coupling))
}

pub fn temperature_refused(temperature: f32) -> bool {
    !(1.0 / 1024.0..=1_048_576.0).contains(&temperature)
}

pub fn cut_refused(cut: f32) -> bool {
    !(0.0..f32::INFINITY).contains(&cut)
}

pub fn permutation_refused(p: &[u8]) -> bool {
    (0..p.len()).any(|value| !p.iter().any(|&entry| usize::from(entry) == value))
}

pub fn identity(p: &[u8]) -> bool {
    p.iter().enumerate().all(|(k, &v)| usize::from(v) == k)
}

/// The exact length of each buffer beside the panel's, for this many tasks; none where the call takes no such buffer.
#[derive(Clone, Copy, Debug)]
pub struct Lengths {
    pub couplings: Option<usize>,
    pub cuts: Option<usize>,
    pub references: Option<usize>,
    pub seeds: Option<usize>,
    pub flips: Option<usize>,
    pub perms: Option<usize>,
    pub greys: Option<usize>,
    pub labels: Option<usize>,
    pub grey_labels: Option<usize>,
    pub counts: Option<usize>,
    pub sizes: Option<usize>,
    pub member_sites: Option<usize>,
    pub found: Option<usize>,
    pub grey_found: Option<usize>,
}

pub fn lengths(
    mode: Mode,
    form: Form,
    n: usize,
    d: usize,
    members: usize,
    tasks: usize,
) -> Lengths {
    let (sw, one, grow) = (form == Form::Sw, form.one_cluster(), form == Form::Grow);
    let cmr = mode == Mode::Cmr;
    let labelled = |length: usize| (!grow).then_some(tasks * length);
    Lengths {
        couplings: mode.draws().then_some(n * d),
        cuts: mode.draws().then_some(tasks * n * d),
        references: (mode == Mode::Gperm).then_some(tasks),
        seeds: one.then_some(tasks),
        flips: (sw && !mode.permutes()).then_some(tasks * n),
        perms: match (mode.permutes(), form) {
            (true, Form::Sw) => Some(tasks * n * members),
            (true, Form::Wolff | Form::Grow) => Some(tasks * members),
            _ => None,
        },
        greys: match (cmr, form) {
            (true, Form::Sw) => Some(tasks * n),
            (true, Form::Wolff | Form::Grow) => Some(tasks),
            _ => None,
        },
        labels: labelled(n),
        grey_labels: labelled(n).filter(|_| cmr && (sw || one)),
        counts: labelled(n + 1),
        sizes: labelled(4),
        member_sites: grow.then_some(tasks * n),
        found: labelled(1),
        grey_found: labelled(1).filter(|_| cmr && (sw || one)),
    }
}

impl Lengths {
    /// The same where a permutation is a row of `members` bytes, or a number of one.
    pub fn spelt(self, coding: Coding, members: usize) -> Lengths {
        let perms = match coding {
            Coding::Rows => self.perms,
            Coding::Numbers => self.perms.map(|bytes| bytes / members),
        };
        Lengths { perms, ..self }
    }
}

pub fn differs(wanted: Option<usize>, found: usize) -> bool {
    wanted.is_some_and(|wanted| wanted != found)
}

/// Whether some buffer that every move and sweep is lent beside its tables and spins has another length than the exact one.
macro_rules! own_lengths_differ {
    ($exact:expr, $call:expr) => {
        $call.pins.len() != $call.n
            || differs($exact.couplings, $call.couplings.len())
            || differs($exact.cuts, $call.cuts.len())
            || differs($exact.flips, $call.flips.len())
            || differs($exact.perms, $call.perms.len())
            || differs($exact.greys, $call.greys.len())
            || differs($exact.labels, $call.labels.len())
            || differs($exact.grey_labels, $call.grey_labels.len())
            || differs($exact.counts, $call.counts.len())
            || differs($exact.sizes, $call.sizes.len())
            || differs($exact.member_sites, $call.member_sites.len())
            || differs($exact.found, $call.found.len())
            || differs($exact.grey_found, $call.grey_found.len())
    };
}

/// Tests 3 to 7, of what a call names or takes of it: none where it takes no such thing.
pub fn panel_refusal(
    panel: Panel,
    pins: &[u8],
    systems: &[usize],
    couplings_taken: bool,
    temperatures: &[f32],
) -> Option<u8> {
    if rows_refused(panel, systems) {
        Some(3)
    } else if tables_refused(panel) || pins_refused(pins) {
        Some(4)
    } else if systems_refused(panel, systems) {
        Some(5)
    } else if couplings_taken && coupling_refused(panel.couplings) {
        Some(6)
    } else if temperatures.iter().any(|&t| temperature_refused(t)) {
        Some(7)
    } else {
        None
    }
}

pub fn choices_refused(panel: Panel, task: &Task) -> bool {
    let permutes = task.mode.permutes();
    let reference = task.mode == Mode::Gperm && task.reference >= panel.n;
    let numbers = task.coding.numbers(task.mode, task.form);
    let choices = match task.form {
        Form::Sw if numbers => task.perms.iter().any(|number| !(0..=119).contains(number)),
        Form::Wolff | Form::Grow if numbers => !(1..=119).contains(&task.perms[0]),
        Form::Sw if permutes => task.perms.chunks(task.group.len()).any(permutation_refused),
        Form::Sw => {
            let grey = task.mode == Mode::Cmr && task.greys.iter().any(|&grey| grey > 3);
            task.flips.iter().any(|&flip| flip > 1) || grey
        }
        Form::Wolff | Form::Grow if permutes => {
            permutation_refused(task.perms) || identity(task.perms)
        }
        Form::Wolff | Form::Grow => task.mode == Mode::Cmr && !(1..=3).contains(&task.greys[0]),
        Form::Observe => false,
    };
    reference || choices
}

pub fn seed_refused(panel: Panel, task: &Task, acts: impl Fn(usize) -> bool) -> bool {
    task.form.one_cluster()
        && (task.seed >= panel.n
            || (task.mode != Mode::Cmr && (0..panel.n).any(&acts) && !acts(task.seed)))
}

/// Tests 8, 9 and 10 of one task, whose acting sites are these.
pub fn task_refusal(panel: Panel, task: &Task, acts: impl Fn(usize) -> bool) -> Option<u8> {
    if task.mode.draws() && task.cuts.iter().any(|&cut| cut_refused(cut)) {
        Some(8)
    } else if choices_refused(panel, task) {
        Some(9)
    } else if seed_refused(panel, task, acts) {
        Some(10)
    } else {
        None
    }
}
