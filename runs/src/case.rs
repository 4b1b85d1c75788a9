//! Calls with buffers of their own.
use crate::model::Lengths;
use calls::{
    Answer, Coding, Form, HandOver, Keeps, Label, Meter, Mode, PackedStep, Port, Step, Sweep,
    SweepAnswer,
};

/// The buffers that a call may write. Columns are those of a packed call (11/14), which has no spins.
#[derive(Clone, Debug, Default, PartialEq, Eq)]
pub struct Lent {
    pub spins: Vec<i8>,
    pub columns: Vec<u8>,
    pub totals: Vec<i64>,
    pub labels: Vec<u32>,
    pub grey_labels: Vec<u32>,
    pub counts: Vec<u32>,
    pub sizes: Vec<u32>,
    pub member_sites: Vec<u8>,
    pub found: Vec<u32>,
    pub grey_found: Vec<u32>,
}

impl Lent {
    /// No totals, and every output that the call takes at its exact length, filled.
    pub fn filled(exact: Lengths, spins: Vec<i8>, number: u32, byte: u8) -> Lent {
        let output = |length: Option<usize>| vec![number; length.unwrap_or(0)];
        Lent {
            spins,
            columns: Vec::new(),
            totals: Vec::new(),
            labels: output(exact.labels),
            grey_labels: output(exact.grey_labels),
            counts: output(exact.counts),
            sizes: output(exact.sizes),
            member_sites: vec![byte; exact.member_sites.unwrap_or(0)],
            found: output(exact.found),
            grey_found: output(exact.grey_found),
        }
    }
}

/// What single moves and sweeps share.
#[derive(Clone, Debug)]
pub struct Panel {
    pub mode: Mode,
    pub form: Form,
    pub coding: Coding,
    pub keeps: Keeps,
    pub n: usize,
    pub d: usize,
    pub s: usize,
    /// The caller's team, and whose each system is (12/14).
    pub team: u8,
    pub owners: Vec<u8>,
    pub fwd: Vec<u32>,
    pub bwd: Vec<u32>,
    pub pins: Vec<u8>,
    pub couplings: Vec<i32>,
}

impl Panel {
    /// So many systems, all of one team.
    pub fn of_one_team(&mut self, s: usize) {
        (self.s, self.team, self.owners) = (s, 0, vec![0; s]);
    }

    /// Whether some byte of its pins is not 0.
    pub fn pinned(&self) -> bool {
        self.pins.iter().any(|&pin| pin != 0)
    }

    /// Whether a call on it takes totals.
    pub fn keeping(&self) -> bool {
        self.keeps.totals(self.form)
    }

    /// Whether a call on it takes numbers for permutations.
    pub fn numbers(&self) -> bool {
        self.coding.numbers(self.mode, self.form)
    }

    pub fn meter<'a>(&'a self, spins: &'a [i8], system: usize) -> Meter<'a> {
        Meter {
            n: self.n,
            d: self.d,
            s: self.s,
            team: self.team,
            owners: &self.owners,
            spins,
            fwd: &self.fwd,
            bwd: &self.bwd,
            couplings: &self.couplings,
            system,
        }
    }

    pub fn hand_over<'a>(&'a self, lent: &'a Lent) -> HandOver<'a> {
        HandOver {
            n: self.n,
            d: self.d,
            s: self.s,
            team: self.team,
            owners: &self.owners,
            spins: &lent.spins,
            totals: &lent.totals,
            fwd: &self.fwd,
            bwd: &self.bwd,
            couplings: &self.couplings,
        }
    }
}

#[derive(Clone, Debug, Default)]
pub struct Choices {
    pub cuts: Vec<f32>,
    pub flips: Vec<u8>,
    pub perms: Vec<u8>,
    pub greys: Vec<u8>,
}

#[derive(Clone, Debug)]
pub struct Single {
    pub panel: Panel,
    pub group: Vec<u32>,
    pub temperature: f32,
    pub reference: usize,
    pub seed: usize,
    pub choices: Choices,
    pub lent: Lent,
}

/// A move of a group of so many members, which are columns of what is lent.
#[derive(Clone, Debug)]
pub struct Packed {
    pub panel: Panel,
    pub members: usize,
    pub temperature: f32,
    pub reference: usize,
    pub seed: usize,
    pub choices: Choices,
    pub lent: Lent,
}

#[derive(Clone, Debug)]
pub struct Swept {
    pub panel: Panel,
    pub t: usize,
    pub r: usize,
    pub members: usize,
    pub order: Vec<u32>,
    pub masks: Vec<u8>,
    pub temperatures: Vec<f32>,
    pub references: Vec<u32>,
    pub seeds: Vec<u32>,
    pub choices: Choices,
    pub lent: Lent,
}

/// A table of holding bonds to label, and which components count.
#[derive(Clone, Debug)]
pub struct Bonds {
    pub n: usize,
    pub d: usize,
    pub fwd: Vec<u32>,
    pub holds: Vec<u8>,
    pub counted: Vec<u8>,
    pub lent: Lent,
}

impl Bonds {
    pub fn run(&self, side: &mut dyn Port) -> (u8, Lent) {
        let mut lent = self.lent.clone();
        let code = side.label(Label {
            n: self.n,
            d: self.d,
            fwd: &self.fwd,
            holds: &self.holds,
            counted: &self.counted,
            labels: &mut lent.labels,
            counts: &mut lent.counts,
            sizes: &mut lent.sizes,
            found: &mut lent.found,
        });
        (code, lent)
    }
}

/// A call of a case with buffers lent to it: what moves, packed ones and sweeps share, and the fields of its own.
macro_rules! call_of {
    ($call:ident, $case:expr, $lent:expr, { $($field:ident: $value:expr,)* }) => {
        $call {
            mode: $case.panel.mode,
            form: $case.panel.form,
            coding: $case.panel.coding,
            keeps: $case.panel.keeps,
            n: $case.panel.n,
            d: $case.panel.d,
            totals: &mut $lent.totals,
            fwd: &$case.panel.fwd,
            bwd: &$case.panel.bwd,
            pins: &$case.panel.pins,
            couplings: &$case.panel.couplings,
            cuts: &$case.choices.cuts,
            flips: &$case.choices.flips,
            perms: &$case.choices.perms,
            greys: &$case.choices.greys,
            labels: &mut $lent.labels,
            grey_labels: &mut $lent.grey_labels,
            counts: &mut $lent.counts,
            sizes: &mut $lent.sizes,
            member_sites: &mut $lent.member_sites,
            found: &mut $lent.found,
            grey_found: &mut $lent.grey_found,
            $($field: $value,)*
        }
    };
}

impl Single {
    pub fn step<'a>(&'a self, lent: &'a mut Lent) -> Step<'a> {
        call_of!(Step, self, lent, {
            s: self.panel.s,
            team: self.panel.team,
            owners: &self.panel.owners,
            spins: &mut lent.spins,
            group: &self.group,
            temperature: self.temperature,
            reference: self.reference,
            seed: self.seed,
        })
    }

    pub fn run(&self, side: &mut dyn Port) -> (Answer, Lent) {
        let mut lent = self.lent.clone();
        (side.step(self.step(&mut lent)), lent)
    }

    pub fn meter(&self, system: usize) -> Meter<'_> {
        self.panel.meter(&self.lent.spins, system)
    }
}

impl Packed {
    pub fn step<'a>(&'a self, lent: &'a mut Lent) -> PackedStep<'a> {
        call_of!(PackedStep, self, lent, {
            members: self.members,
            columns: &mut lent.columns,
            temperature: self.temperature,
            reference: self.reference,
            seed: self.seed,
        })
    }

    pub fn run(&self, side: &mut dyn Port) -> (Answer, Lent) {
        let mut lent = self.lent.clone();
        (side.packed_step(self.step(&mut lent)), lent)
    }
}

impl Swept {
    pub fn sweep<'a>(&'a self, lent: &'a mut Lent) -> Sweep<'a> {
        call_of!(Sweep, self, lent, {
            s: self.panel.s,
            team: self.panel.team,
            owners: &self.panel.owners,
            spins: &mut lent.spins,
            t: self.t,
            r: self.r,
            members: self.members,
            order: &self.order,
            masks: &self.masks,
            temperatures: &self.temperatures,
            references: &self.references,
            seeds: &self.seeds,
        })
    }

    pub fn run(&self, side: &mut dyn Port) -> (SweepAnswer, Lent) {
        let mut lent = self.lent.clone();
        (side.sweep(self.sweep(&mut lent)), lent)
    }
}
