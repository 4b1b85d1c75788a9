//! A task with all that its three steps take, so that each of them can be made by itself, on what another step left or on anything else.
use super::Steps;
use crate::case::{Choices, Lent, Panel, Single};
use crate::make::UNTOUCHED_BYTE;
use crate::packed::rows_of;
use crate::rand::Rand;
use calls::{Answer, TaskChoose, TaskLabel, TaskWrite};

/// The spins that are lent are the members' rows, and the columns are the area.
#[derive(Clone, Debug)]
pub struct Task {
    pub panel: Panel,
    pub members: usize,
    pub temperature: f32,
    pub reference: usize,
    pub seed: usize,
    pub choices: Choices,
    pub lent: Lent,
    pub blue: Vec<u8>,
}

/// One of the three.
#[derive(Clone, Copy, Debug, PartialEq)]
pub enum Which {
    Label,
    Choose,
    Write,
}

impl Which {
    pub const ALL: [Which; 3] = [Which::Label, Which::Choose, Which::Write];
}

impl Task {
    /// The task that a good move by rows is.
    pub fn of(case: &Single) -> Task {
        let panel = &case.panel;
        Task {
            members: case.group.len(),
            temperature: case.temperature,
            reference: case.reference,
            seed: case.seed,
            choices: case.choices.clone(),
            lent: Task::own(case, &case.lent),
            blue: vec![UNTOUCHED_BYTE; panel.n],
            panel: panel.clone(),
        }
    }

    /// What the move has lent, or left, as far as it is its group's.
    pub fn own(case: &Single, lent: &Lent) -> Lent {
        let n = case.panel.n;
        Lent {
            spins: rows_of(&case.group, &lent.spins, n),
            columns: vec![UNTOUCHED_BYTE; n],
            ..case.packed_lent(lent)
        }
    }

    /// Lists that need not be those of the rows, of as many different labels as there are sites or of few.
    pub fn told(&self, rand: &mut Rand) -> Task {
        let mut task = self.clone();
        let most = rand.range(1, task.panel.n);
        let few = rand.once_in(2);
        let mut label = |label: &mut u32| {
            let below = if few { most.min(4) } else { task.panel.n };
            *label = rand.range(0, below - 1) as u32;
        };
        task.lent.labels.iter_mut().for_each(&mut label);
        task.lent.grey_labels.iter_mut().for_each(&mut label);
        let mut mark = |mark: &mut u8| *mark = rand.range(0, 1) as u8;
        task.lent.member_sites.iter_mut().for_each(&mut mark);
        task.blue.iter_mut().for_each(&mut mark);
        task
    }

    /// Columns that need not be what the move makes, and of grow other members.
    pub fn drawn(&self, rand: &mut Rand) -> Task {
        let mut task = self.told(rand);
        let most = (1 << self.members) - 1;
        let column = |column: &mut u8| *column = rand.range(0, most) as u8;
        task.lent.columns.iter_mut().for_each(column);
        task
    }

    /// The step's answer, and what it leaves.
    pub fn run(&self, which: Which, side: &mut dyn Steps) -> (Answer, Task) {
        let mut after = self.clone();
        let done = |number: u8| match number {
            0 => Answer::Moved,
            number => Answer::Refused(number),
        };
        let answer = match which {
            Which::Label => side.label(self.label(&mut after.lent, &mut after.blue)),
            Which::Choose => done(side.choose(self.choose(&mut after.lent.columns))),
            Which::Write => {
                done(side.write(self.write(&mut after.lent.spins, &mut after.lent.totals)))
            }
        };
        (answer, after)
    }

    pub fn label<'a>(&'a self, lent: &'a mut Lent, blue: &'a mut [u8]) -> TaskLabel<'a> {
        TaskLabel {
            mode: self.panel.mode,
            form: self.panel.form,
            n: self.panel.n,
            d: self.panel.d,
            members: self.members,
            rows: &self.lent.spins,
            fwd: &self.panel.fwd,
            bwd: &self.panel.bwd,
            pins: &self.panel.pins,
            couplings: &self.panel.couplings,
            temperature: self.temperature,
            cuts: &self.choices.cuts,
            reference: self.reference,
            seed: self.seed,
            flips: &self.choices.flips,
            perms: &self.choices.perms,
            greys: &self.choices.greys,
            labels: &mut lent.labels,
            grey_labels: &mut lent.grey_labels,
            counts: &mut lent.counts,
            sizes: &mut lent.sizes,
            member_sites: &mut lent.member_sites,
            found: &mut lent.found,
            grey_found: &mut lent.grey_found,
            blue,
        }
    }

    pub fn choose<'a>(&'a self, area: &'a mut [u8]) -> TaskChoose<'a> {
        TaskChoose {
            mode: self.panel.mode,
            form: self.panel.form,
            n: self.panel.n,
            d: self.panel.d,
            members: self.members,
            rows: &self.lent.spins,
            pins: &self.panel.pins,
            reference: self.reference,
            seed: self.seed,
            flips: &self.choices.flips,
            perms: &self.choices.perms,
            greys: &self.choices.greys,
            labels: &self.lent.labels,
            grey_labels: &self.lent.grey_labels,
            member_sites: &self.lent.member_sites,
            blue: &self.blue,
            area,
        }
    }

    pub fn write<'a>(&'a self, rows: &'a mut [i8], totals: &'a mut [i64]) -> TaskWrite<'a> {
        TaskWrite {
            mode: self.panel.mode,
            form: self.panel.form,
            keeps: self.panel.keeps,
            n: self.panel.n,
            d: self.panel.d,
            members: self.members,
            rows,
            totals,
            fwd: &self.panel.fwd,
            bwd: &self.panel.bwd,
            couplings: &self.panel.couplings,
            member_sites: &self.lent.member_sites,
            area: &self.lent.columns,
        }
    }
}
