//! Calls with pins (9/14) for the Rust, which knows none: the call without pins that must give the same, where there is one. In SW it has, for each
//! component that is held, the choice that changes nothing; to observe is the same with pins or without; and where one cluster moves, which is not
//! held, it moves as ever. There is none where the seed is held, and none in CMR, where no grey number changes nothing.
use super::Line;
use crate::case::{Choices, Lent, Panel, Single, Swept};
use calls::{Answer, Form, Mode, SweepAnswer};

impl Line {
    pub fn count_pinned(&mut self, panel: &Panel) {
        self.pinned += usize::from(panel.pinned());
    }
}

/// A task's pinned components by number, read off the labels that it wrote.
fn held<'a>(panel: &'a Panel, labels: &'a [u32], task: usize) -> impl Iterator<Item = usize> + 'a {
    let labels = labels.iter().skip(task * panel.n).take(panel.n);
    let pinned = labels.zip(&panel.pins).filter(|(_, &pin)| pin == 1);
    pinned.map(|(&label, _)| label as usize)
}

/// The choices of a task's held components become those that change nothing.
fn release(choices: &mut Choices, panel: &Panel, members: usize, lent: &Lent, task: usize) {
    let first = task * panel.n;
    for number in held(panel, &lent.labels, task) {
        match panel.mode.permutes() {
            true => {
                let at = (first + number) * members;
                (0..members).for_each(|k| choices.perms[at + k] = k as u8);
            }
            false => choices.flips[first + number] = 0,
        }
    }
    if panel.mode == Mode::Cmr {
        held(panel, &lent.grey_labels, task).for_each(|grey| choices.greys[first + grey] = 0);
    }
}

/// Whether a call with pins has one without that gives the same; `held` is whether some seed is.
fn comparable(panel: &Panel, held: bool) -> bool {
    let one_cluster = panel.form.one_cluster() && (held || panel.mode == Mode::Cmr);
    published_patched::PRESENT && !(panel.pinned() && one_cluster)
}

pub fn single(case: &Single, answer: Answer, lent: &Lent, line: &mut Line) -> Option<Single> {
    let refused = matches!(answer, Answer::Refused(_));
    if refused || !comparable(&case.panel, answer == Answer::Held) {
        return None;
    }
    line.released += usize::from(case.panel.pinned());
    let mut other = case.clone();
    if case.panel.form == Form::Sw {
        release(&mut other.choices, &case.panel, case.group.len(), lent, 0);
    }
    other.panel.pins.fill(0);
    Some(other)
}

pub fn swept(case: &Swept, answer: SweepAnswer, lent: &Lent, line: &mut Line) -> Option<Swept> {
    let SweepAnswer::Swept { held, .. } = answer else {
        return None;
    };
    if !comparable(&case.panel, held > 0) {
        return None;
    }
    line.released += usize::from(case.panel.pinned());
    let mut other = case.clone();
    let groups = case.r / case.members;
    if case.panel.form == Form::Sw {
        for task in (0..case.tasks()).filter(|task| case.masks[task / groups] == 0) {
            release(&mut other.choices, &case.panel, case.members, lent, task);
        }
    }
    other.panel.pins.fill(0);
    Some(other)
}
