//! A call that grows beside Wolff's call with the same seed, cuts and choices, each with its own outputs at their exact lengths: the answers are the
//! same, refusals too, and so are the spins and the totals; the members are the sites whose label, in CMR the grey label, is the seed's.
use crate::case::{Lent, Single, Swept};
use crate::make::{UNTOUCHED, UNTOUCHED_BYTE};
use crate::model::lengths;
use calls::{Answer, Form, Mode, Port, SweepAnswer};

/// The outputs of a form at their exact lengths, none of those that it does not take. Sizes that are refused anyway have no outputs.
fn own(form: Form, mode: Mode, sizes: [usize; 4], lent: &Lent) -> Lent {
    let (spins, totals) = (lent.spins.clone(), lent.totals.clone());
    let [n, d, members, tasks] = sizes;
    if n > 4096 || d > 4 || members > 8 || tasks > 64 {
        return Lent {
            spins,
            totals,
            ..Lent::default()
        };
    }
    let exact = lengths(mode, form, n, d, members, tasks);
    let filled = Lent::filled(exact, spins, UNTOUCHED, UNTOUCHED_BYTE);
    Lent { totals, ..filled }
}

/// What the labels that Wolff wrote say of one task: the sites of the seed's component.
fn members_by(mode: Mode, wolff: &Lent, n: usize, task: usize, seed: usize) -> Vec<u8> {
    let labels = match mode {
        Mode::Cmr => &wolff.grey_labels,
        _ => &wolff.labels,
    };
    let labels = &labels[task * n..(task + 1) * n];
    let same = |label: &u32| u8::from(*label == labels[seed]);
    labels.iter().map(same).collect()
}

fn first(differences: &[(bool, &'static str)]) -> Option<&'static str> {
    differences
        .iter()
        .find(|(so, _)| *so)
        .map(|(_, what)| *what)
}

impl Single {
    fn in_form(&self, form: Form) -> Single {
        let mut case = self.clone();
        let panel = &mut case.panel;
        panel.form = form;
        let sizes = [panel.n, panel.d, case.group.len(), 1];
        case.lent = own(form, panel.mode, sizes, &self.lent);
        case
    }
}

/// What differs between the two calls of one side.
pub fn single(case: &Single, side: &mut dyn Port) -> Option<&'static str> {
    let (wolff_answer, wolff) = case.in_form(Form::Wolff).run(side);
    let (answer, lent) = case.in_form(Form::Grow).run(side);
    let (mode, n) = (case.panel.mode, case.panel.n);
    let members = match wolff_answer {
        Answer::Refused(_) => vec![UNTOUCHED_BYTE; lent.member_sites.len()],
        Answer::Idle => vec![0; n],
        Answer::Moved | Answer::Held => members_by(mode, &wolff, n, 0, case.seed),
    };
    first(&[
        (answer != wolff_answer, "the answer"),
        (lent.spins != wolff.spins, "the spins"),
        (lent.totals != wolff.totals, "the totals"),
        (lent.member_sites != members, "the members"),
    ])
}

impl Swept {
    pub fn tasks(&self) -> usize {
        let groups = self.r.checked_div(self.members).unwrap_or(0);
        self.t.saturating_mul(groups)
    }

    fn in_form(&self, form: Form) -> Swept {
        let mut case = self.clone();
        case.panel.form = form;
        let sizes = [case.panel.n, case.panel.d, case.members, case.tasks()];
        case.lent = own(form, case.panel.mode, sizes, &self.lent);
        case
    }
}

/// The members that the labels of every unmasked task tell. A task is idle where none of its components is counted.
fn swept_members(case: &Swept, wolff: &Lent) -> Vec<u8> {
    let (mode, n, groups) = (case.panel.mode, case.panel.n, case.r / case.members);
    let of = |task: usize| {
        let counts = &wolff.counts[task * (n + 1)..(task + 1) * (n + 1)];
        match (
            case.masks[task / groups],
            counts.iter().all(|&count| count == 0),
        ) {
            (1, _) => vec![UNTOUCHED_BYTE; n],
            (_, true) => vec![0; n],
            _ => members_by(mode, wolff, n, task, case.seeds[task] as usize),
        }
    };
    (0..case.tasks()).flat_map(of).collect()
}

/// The same of a sweep.
pub fn swept(case: &Swept, side: &mut dyn Port) -> Option<&'static str> {
    let (wolff_answer, wolff) = case.in_form(Form::Wolff).run(side);
    let (answer, lent) = case.in_form(Form::Grow).run(side);
    let members = match wolff_answer {
        SweepAnswer::Refused(_) => vec![UNTOUCHED_BYTE; lent.member_sites.len()],
        SweepAnswer::Swept { .. } => swept_members(case, &wolff),
    };
    first(&[
        (answer != wolff_answer, "the answer"),
        (lent.spins != wolff.spins, "the spins"),
        (lent.totals != wolff.totals, "the totals"),
        (lent.member_sites != members, "the members"),
    ])
}
