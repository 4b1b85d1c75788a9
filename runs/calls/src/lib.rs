//! The calls of document 01 as every side takes them: the model, the published Rust and the port.
//!
//! A call borrows its buffers, so that what a side wrote, and what it left alone, is seen byte for byte.
mod packed;
mod steps;
mod vendor;

pub use packed::{Pack, PackedStep, Unpack};
pub use steps::{TaskChoose, TaskLabel, TaskWrite};
pub use vendor::{CheckVendor, VendorAnswer};

#[derive(Clone, Copy, Debug, PartialEq, Eq)]
pub enum Mode {
    Houd = 0,
    Pair = 1,
    Perm = 2,
    Gperm = 3,
    Jorg = 4,
    Cmr = 5,
}

impl Mode {
    pub const ALL: [Mode; 6] = [
        Mode::Houd,
        Mode::Pair,
        Mode::Perm,
        Mode::Gperm,
        Mode::Jorg,
        Mode::Cmr,
    ];

    pub fn name(self) -> &'static str {
        ["houd", "pair", "perm", "gperm", "jorg", "cmr"][self as usize]
    }

    /// Bonds are drawn: the mode takes couplings, a temperature and cuts.
    pub fn draws(self) -> bool {
        matches!(self, Mode::Jorg | Mode::Cmr)
    }

    pub fn permutes(self) -> bool {
        matches!(self, Mode::Perm | Mode::Gperm)
    }

    /// The largest group: CMR has two systems, and houd moves two and observes any (10/14).
    pub fn most_members(self, form: Form) -> usize {
        match self {
            Mode::Cmr => 2,
            Mode::Houd if form != Form::Observe => 2,
            _ => 8,
        }
    }
}

#[derive(Clone, Copy, Debug, PartialEq, Eq)]
pub enum Form {
    Sw = 0,
    Wolff = 1,
    Observe = 2,
    Grow = 3,
}

impl Form {
    pub const ALL: [Form; 4] = [Form::Sw, Form::Wolff, Form::Observe, Form::Grow];

    /// Those that write labels, counts and sizes; `Grow` writes the member sites instead.
    pub const LABELLED: [Form; 3] = [Form::Sw, Form::Wolff, Form::Observe];

    pub fn name(self) -> &'static str {
        ["SW", "Wolff", "observe", "grow"][self as usize]
    }

    /// Moves the component of a seed.
    pub fn one_cluster(self) -> bool {
        matches!(self, Form::Wolff | Form::Grow)
    }
}

/// How a permutation is spelt (8/14).
#[derive(Clone, Copy, Debug, PartialEq, Eq)]
pub enum Coding {
    Rows = 0,
    Numbers = 1,
}

impl Coding {
    pub const ALL: [Coding; 2] = [Coding::Rows, Coding::Numbers];

    /// Whether a call of this mode and form takes numbers: where it takes no permutations the coding is ignored.
    pub fn numbers(self, mode: Mode, form: Form) -> bool {
        self == Coding::Numbers && mode.permutes() && form != Form::Observe
    }
}

/// What a call keeps beside the spins (6/14).
#[derive(Clone, Copy, Debug, PartialEq, Eq)]
pub enum Keeps {
    Nothing = 0,
    Totals = 1,
}

impl Keeps {
    pub const ALL: [Keeps; 2] = [Keeps::Nothing, Keeps::Totals];

    /// Whether a call of this form takes totals, and couplings with them: to observe moves nothing and keeps none.
    pub fn totals(self, form: Form) -> bool {
        self == Keeps::Totals && form != Form::Observe
    }
}

#[derive(Clone, Copy, Debug, PartialEq, Eq)]
pub enum Answer {
    Moved,
    Idle,
    Held,
    Refused(u8),
}

#[derive(Clone, Copy, Debug, PartialEq, Eq)]
pub enum SweepAnswer {
    Swept { idle: u32, moved: u32, held: u32 },
    Refused(u8),
}

#[derive(Clone, Copy, Debug, PartialEq, Eq)]
pub enum MeterAnswer {
    Energy(i64),
    Refused(u8),
}

/// One move of one group. A buffer that the mode and form do not take may have any length and content. An owner byte says whose a system is, and `team`
/// who calls (12/14).
pub struct Step<'a> {
    pub mode: Mode,
    pub form: Form,
    pub coding: Coding,
    pub keeps: Keeps,
    pub n: usize,
    pub d: usize,
    pub s: usize,
    pub team: u8,
    pub owners: &'a [u8],
    pub spins: &'a mut [i8],
    pub totals: &'a mut [i64],
    pub fwd: &'a [u32],
    pub bwd: &'a [u32],
    pub pins: &'a [u8],
    pub couplings: &'a [i32],
    pub group: &'a [u32],
    pub temperature: f32,
    pub cuts: &'a [f32],
    pub reference: usize,
    pub seed: usize,
    pub flips: &'a [u8],
    pub perms: &'a [u8],
    pub greys: &'a [u8],
    pub labels: &'a mut [u32],
    pub grey_labels: &'a mut [u32],
    pub counts: &'a mut [u32],
    pub sizes: &'a mut [u32],
    pub member_sites: &'a mut [u8],
    pub found: &'a mut [u32],
    pub grey_found: &'a mut [u32],
}

impl<'a> Step<'a> {
    /// The same move as a sweep of one group at one temperature, for a side that knows no owners; `sites` are its reference and its seed.
    pub fn as_sweep(self, temperature: &'a [f32; 1], sites: &'a [u32; 2]) -> Sweep<'a> {
        Sweep {
            mode: self.mode,
            form: self.form,
            coding: self.coding,
            keeps: self.keeps,
            n: self.n,
            d: self.d,
            s: self.s,
            team: self.team,
            t: 1,
            r: self.group.len(),
            members: self.group.len(),
            owners: self.owners,
            spins: self.spins,
            totals: self.totals,
            fwd: self.fwd,
            bwd: self.bwd,
            pins: self.pins,
            couplings: self.couplings,
            order: self.group,
            masks: &[0],
            temperatures: temperature,
            cuts: self.cuts,
            references: &sites[..1],
            seeds: &sites[1..],
            flips: self.flips,
            perms: self.perms,
            greys: self.greys,
            labels: self.labels,
            grey_labels: self.grey_labels,
            counts: self.counts,
            sizes: self.sizes,
            member_sites: self.member_sites,
            found: self.found,
            grey_found: self.grey_found,
        }
    }
}

/// One sweep. Task `j * (r / members) + g` has its areas at that number; a mask byte of 1 masks its temperature.
pub struct Sweep<'a> {
    pub mode: Mode,
    pub form: Form,
    pub coding: Coding,
    pub keeps: Keeps,
    pub n: usize,
    pub d: usize,
    pub s: usize,
    pub team: u8,
    pub t: usize,
    pub r: usize,
    pub members: usize,
    pub owners: &'a [u8],
    pub spins: &'a mut [i8],
    pub totals: &'a mut [i64],
    pub fwd: &'a [u32],
    pub bwd: &'a [u32],
    pub pins: &'a [u8],
    pub couplings: &'a [i32],
    pub order: &'a [u32],
    pub masks: &'a [u8],
    pub temperatures: &'a [f32],
    pub cuts: &'a [f32],
    pub references: &'a [u32],
    pub seeds: &'a [u32],
    pub flips: &'a [u8],
    pub perms: &'a [u8],
    pub greys: &'a [u8],
    pub labels: &'a mut [u32],
    pub grey_labels: &'a mut [u32],
    pub counts: &'a mut [u32],
    pub sizes: &'a mut [u32],
    pub member_sites: &'a mut [u8],
    pub found: &'a mut [u32],
    pub grey_found: &'a mut [u32],
}

/// The energy of one system.
pub struct Meter<'a> {
    pub n: usize,
    pub d: usize,
    pub s: usize,
    pub team: u8,
    pub owners: &'a [u8],
    pub spins: &'a [i8],
    pub fwd: &'a [u32],
    pub bwd: &'a [u32],
    pub couplings: &'a [i32],
    pub system: usize,
}

/// Totals, to be held to the energy of each system of the team.
pub struct HandOver<'a> {
    pub n: usize,
    pub d: usize,
    pub s: usize,
    pub team: u8,
    pub owners: &'a [u8],
    pub spins: &'a [i8],
    pub totals: &'a [i64],
    pub fwd: &'a [u32],
    pub bwd: &'a [u32],
    pub couplings: &'a [i32],
}

/// Labels of a table of holding bonds (1 holds, 0 does not), how many components there are, and counts and the four sizes of those whose
/// smallest site has the byte 1 in `counted`.
pub struct Label<'a> {
    pub n: usize,
    pub d: usize,
    pub fwd: &'a [u32],
    pub holds: &'a [u8],
    pub counted: &'a [u8],
    pub labels: &'a mut [u32],
    pub counts: &'a mut [u32],
    pub sizes: &'a mut [u32],
    pub found: &'a mut [u32],
}

/// A side that answers every call of document 01, refusals included.
pub trait Port {
    fn name(&self) -> &'static str;
    fn step(&mut self, call: Step) -> Answer;
    fn sweep(&mut self, call: Sweep) -> SweepAnswer;
    fn energy(&mut self, call: Meter) -> MeterAnswer;
    /// 0, or a refusal number.
    fn hand_over(&mut self, call: HandOver) -> u8;
    /// 0, or a refusal number.
    fn label(&mut self, call: Label) -> u8;
    fn packed_step(&mut self, call: PackedStep) -> Answer;
    /// 0, or a refusal number.
    fn pack(&mut self, call: Pack) -> u8;
    /// 0, or a refusal number.
    fn unpack(&mut self, call: Unpack) -> u8;
    fn check_vendor(&mut self, call: CheckVendor) -> VendorAnswer;
}
