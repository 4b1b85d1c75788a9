//! What a call is lent.
mod meter;
mod packed;
mod steps;
mod vendor;

pub use meter::{Energy, HandOver, MeterAll};
pub use packed::{Pack, PackedStep, Unpack};
pub use steps::{TaskChoose, TaskLabel, TaskWrite};
pub use vendor::CheckVendor;

/// Which sites act, which bonds hold and what a choice does.
#[derive(Clone, Copy, Debug, Default, PartialEq, Eq, Hash)]
pub enum Mode {
    /// Sites where the group's spins sum to 0 act; a flip negates every replica. It moves groups of two alone, as `Pair` does: with
    /// more a flip changes the group's energy, and SW, Wolff and grow are refused with 15. It observes groups of any size.
    #[default]
    Houd = 0,
    /// Sites where some pair (first and second, third and fourth, ..) differs act; a flip exchanges each pair's spins.
    Pair = 1,
    /// Sites where the group does not all agree act; a choice permutes the replicas.
    Perm = 2,
    /// As `Perm`, on the spins gauged by those of a reference site.
    Gperm = 3,
    /// As `Pair`, with bonds that are drawn.
    Jorg = 4,
    /// Two replicas, blue and red bonds that are drawn; every site acts.
    Cmr = 5,
}

impl Mode {
    /// All six.
    pub const ALL: [Mode; 6] = [
        Mode::Houd,
        Mode::Pair,
        Mode::Perm,
        Mode::Gperm,
        Mode::Jorg,
        Mode::Cmr,
    ];

    /// houd, pair, perm, gperm, jorg or cmr.
    pub fn name(self) -> &'static str {
        ["houd", "pair", "perm", "gperm", "jorg", "cmr"][self as usize]
    }
}

/// What is done with the components.
#[derive(Clone, Copy, Debug, Default, PartialEq, Eq, Hash)]
pub enum Form {
    /// Every component has its own choice ("SW").
    #[default]
    Sw = 0,
    /// The component of the seed moves ("Wolff").
    Wolff = 1,
    /// Components are labelled and counted, and nothing moves.
    Observe = 2,
    /// As `Wolff`, but only what the seed's component reaches is looked at: its sites are written, and nothing is labelled or
    /// counted.
    Grow = 3,
}

impl Form {
    /// All four.
    pub const ALL: [Form; 4] = [Form::Sw, Form::Wolff, Form::Observe, Form::Grow];

    /// SW, Wolff, observe or grow.
    pub fn name(self) -> &'static str {
        ["SW", "Wolff", "observe", "grow"][self as usize]
    }
}

/// How `perms` spells permutations, where the mode and form take them.
#[derive(Clone, Copy, Debug, Default, PartialEq, Eq, Hash)]
pub enum Coding {
    /// A permutation is its row of N bytes.
    #[default]
    Rows = 0,
    /// A permutation of five is one byte: the place, 0 to 119, of its row among all 120 in ascending order as words, so that
    /// 0 is 0 1 2 3 4 and 119 is 4 3 2 1 0. A call by numbers is the call by their rows; a group of another size is refused
    /// with 1. [`row_of`](crate::row_of) and [`number_of`](crate::number_of) lead from one to the other.
    Numbers = 1,
}

impl Coding {
    /// Both.
    pub const ALL: [Coding; 2] = [Coding::Rows, Coding::Numbers];
}

/// What a call keeps beside the spins.
#[derive(Clone, Copy, Debug, Default, PartialEq, Eq, Hash)]
pub enum Keeps {
    /// Nothing: totals are not taken.
    #[default]
    Nothing = 0,
    /// Each system's energy, brought current by what the move changed. Couplings are then taken in every mode. To observe
    /// moves nothing, and keeps nothing.
    Totals = 1,
}

impl Keeps {
    /// Both.
    pub const ALL: [Keeps; 2] = [Keeps::Nothing, Keeps::Totals];
}

/// One move or observation of one group, of N = `group.len()` systems.
///
/// Behind each field stands its exact length, and which modes and forms take it if not all do. In SW a component's choice is
/// the entry, of `perms` the row or the number that stands for it, at the component's number (CMR: `flips` at the blue number,
/// `greys` at the grey one), and entries that no component uses are tested too.
#[derive(Debug, Default)]
pub struct Step<'a> {
    /// Houd if left out.
    pub mode: Mode,
    /// SW if left out.
    pub form: Form,
    /// Rows if left out.
    pub coding: Coding,
    /// Nothing if left out.
    pub keeps: Keeps,
    /// Sites, 1 to 4096.
    pub n: usize,
    /// Directions, 1 to 4.
    pub d: usize,
    /// Systems, 1 to 64.
    pub s: usize,
    /// The caller's team, 0 or 1. 0 if left out.
    pub team: u8,
    /// s, each 0 or 1: whose the system is. Left out, `None`, every system is of team 0; [`Teams`](crate::Teams) makes one of two.
    pub owners: Option<&'a [u8]>,
    /// s * n, system by system: the spin of site i in system k is at k * n + i, +1 or -1. The group's are moved; the rows of all
    /// other systems may hold anything, and keep it.
    pub spins: &'a mut [i8],
    /// s, one for each system: that of a system of the group, from -16,384,000,000 to 16,384,000,000, changes by its energy after
    /// the move less its energy before. Those of all others may be anything. Totals kept, in SW, Wolff and grow.
    pub totals: &'a mut [i64],
    /// n * d: entry i * d + e is the forward neighbour of site i in direction e.
    pub fwd: &'a [u32],
    /// n * d: the backward neighbours, inverse to `fwd`.
    pub bwd: &'a [u32],
    /// n, each 0 or 1: 1 pins the site. Left out, `None`, nothing is pinned. A component with a pinned site is held, all of it: it
    /// does not move, in any mode, and is labelled and counted as ever. In CMR a grey component that is held does not move, but the
    /// blue ones in it that are not held still flip. To observe tests pins, and they change nothing.
    pub pins: Option<&'a [u8]>,
    /// n * d, at the bond's entry, each from -1,000,000 to 1,000,000. Jörg, CMR, in every form; totals kept, in every mode.
    pub couplings: &'a [i32],
    /// N of the team's systems, 2 to 8 (CMR: 2, houd: 2 unless it observes); they differ, and their order matters.
    pub group: &'a [u32],
    /// 1/1024 to 1,048,576. Jörg, CMR, in every form.
    pub temperature: f32,
    /// n * d, at the bond's entry, finite and at least 0: a bond is drawn where scale * strength is above its cut.
    /// Jörg, CMR, in every form.
    pub cuts: &'a [f32],
    /// A site. Gperm, in every form.
    pub reference: usize,
    /// A site that acts, if any does. Wolff and grow.
    pub seed: usize,
    /// n, each 0 or 1. SW of houd, pair, Jörg, CMR.
    pub flips: &'a [u8],
    /// SW: n rows of N; Wolff and grow: one row of N that is not the identity. Each row is a permutation of 0 to N - 1:
    /// replica k gets the old spin of replica p(k). By numbers SW: n, each 0 to 119; Wolff and grow: one, 1 to 119. SW, Wolff
    /// and grow of perm, gperm.
    pub perms: &'a [u8],
    /// SW: n, each 0 to 3; Wolff and grow: one, 1 to 3. Bit 0 flips the first replica, bit 1 the second. SW, Wolff and grow
    /// of CMR.
    pub greys: &'a [u8],
    /// n. Written: the number of each site's component (CMR: of its blue one). Components are numbered 0, 1, 2 .. in the order
    /// of their smallest sites; a site that does not act is a component of its own and is numbered too. All forms but grow.
    pub labels: &'a mut [u32],
    /// n. Written: the same of grey components. SW and Wolff of CMR.
    pub grey_labels: &'a mut [u32],
    /// n + 1. Written: count k is the number of acting components of size k, count 0 is 0 (CMR: blue, all of them). All forms
    /// but grow.
    pub counts: &'a mut [u32],
    /// 4. Written: the largest sizes of what is counted, in falling order, filled with 0. All forms but grow.
    pub sizes: &'a mut [u32],
    /// n. Written: 1 at the sites of the seed's component (CMR: of its grey one), else 0; idle: all 0. Grow.
    pub member_sites: &'a mut [u8],
    /// 1. Written: how many components there are (CMR: blue ones), one more than the largest label. Counts are of acting
    /// components only: this is their sum and one for each site that does not act. All forms but grow.
    pub found: &'a mut [u32],
    /// 1. Written: how many grey ones there are. SW and Wolff of CMR.
    pub grey_found: &'a mut [u32],
}

/// A sweep over t temperatures of r replicas, which are all systems of the team, in groups of N = `members` systems.
///
/// Temperature j owns the order's entries from j * r on; its groups are runs of N, and what is left over does not move.
/// Task number j * (r / N) + g is the group g of temperature j, and there are K = t * (r / N) tasks, those of masked
/// temperatures too. Each task is the [`Step`] that it would be alone; its areas in the buffers are at its number, and
/// those of masked tasks are neither read nor written. All tests are made before anything is written.
#[derive(Debug, Default)]
pub struct Sweep<'a> {
    /// Houd if left out.
    pub mode: Mode,
    /// SW if left out.
    pub form: Form,
    /// Rows if left out.
    pub coding: Coding,
    /// Nothing if left out.
    pub keeps: Keeps,
    /// Sites, 1 to 4096.
    pub n: usize,
    /// Directions, 1 to 4.
    pub d: usize,
    /// Systems, 1 to 64, those of both teams.
    pub s: usize,
    /// As in a step. 0 if left out.
    pub team: u8,
    /// Temperatures, at least 1.
    pub t: usize,
    /// Replicas at each temperature: t * r is the number of the team's systems.
    pub r: usize,
    /// The size N of every group, 2 to 8 and at most r (CMR: 2, houd: 2 unless it observes).
    pub members: usize,
    /// s, as in a step. Left out, `None`, every system is of team 0.
    pub owners: Option<&'a [u8]>,
    /// s * n, as in a step; the rows of all systems of the order are spins, those that are left over or masked too.
    pub spins: &'a mut [i8],
    /// s, as in a step. Totals kept, in SW, Wolff and grow.
    pub totals: &'a mut [i64],
    /// n * d, as in a step.
    pub fwd: &'a [u32],
    /// n * d, as in a step.
    pub bwd: &'a [u32],
    /// n, as in a step: the same pins in every task. Left out, `None`, nothing is pinned.
    pub pins: Option<&'a [u8]>,
    /// n * d, as in a step. Jörg, CMR, in every form; totals kept, in every mode.
    pub couplings: &'a [i32],
    /// t * r: the team's systems, each once.
    pub order: &'a [u32],
    /// t, each 0 or 1: 1 masks its temperature.
    pub masks: &'a [u8],
    /// t. Jörg, CMR, in every form.
    pub temperatures: &'a [f32],
    /// K * n * d. Jörg, CMR, in every form.
    pub cuts: &'a [f32],
    /// K. Gperm, in every form.
    pub references: &'a [u32],
    /// K. Wolff and grow.
    pub seeds: &'a [u32],
    /// K * n. SW of houd, pair, Jörg, CMR.
    pub flips: &'a [u8],
    /// SW: K * n * N; Wolff and grow: K * N. By numbers SW: K * n; Wolff and grow: K. SW, Wolff and grow of perm, gperm.
    pub perms: &'a [u8],
    /// SW: K * n; Wolff and grow: K. SW, Wolff and grow of CMR.
    pub greys: &'a [u8],
    /// K * n. Written. All forms but grow.
    pub labels: &'a mut [u32],
    /// K * n. Written. SW and Wolff of CMR.
    pub grey_labels: &'a mut [u32],
    /// K * (n + 1). Written. All forms but grow.
    pub counts: &'a mut [u32],
    /// K * 4. Written. All forms but grow.
    pub sizes: &'a mut [u32],
    /// K * n. Written. Grow.
    pub member_sites: &'a mut [u8],
    /// K. Written. All forms but grow.
    pub found: &'a mut [u32],
    /// K. Written. SW and Wolff of CMR.
    pub grey_found: &'a mut [u32],
}

/// The components of the bonds whose byte in `holds` is 1: every field is taken.
#[derive(Debug, Default)]
pub struct Label<'a> {
    /// Sites, 1 to 4096.
    pub n: usize,
    /// Directions, 1 to 4.
    pub d: usize,
    /// n * d, each below n. A backward table is not needed.
    pub fwd: &'a [u32],
    /// n * d, at the bond's entry, each 0 or 1.
    pub holds: &'a [u8],
    /// n, each 0 or 1: a component counts where the byte at its smallest site is 1.
    pub counted: &'a [u8],
    /// n. Written: the number of each site's component, 0, 1, 2 .. in the order of their smallest sites.
    pub labels: &'a mut [u32],
    /// n + 1. Written: count k is the number of components of size k that count, count 0 is 0.
    pub counts: &'a mut [u32],
    /// 4. Written: the largest sizes of what is counted, in falling order, filled with 0.
    pub sizes: &'a mut [u32],
    /// 1. Written: how many components there are, those that do not count too.
    pub found: &'a mut [u32],
}

/// Couplings from an edge list, as docs/EDGES.md has it: every field is taken.
///
/// The list is a text: a first line "n m", then m lines "i j J", sites counted from 1. Numbers are decimal without leading
/// zeros, a minus only before a J that is not 0; one space between, a line feed after every line, and nothing else.
#[derive(Debug, Default)]
pub struct ReadEdges<'a> {
    /// Sites, 1 to 4096.
    pub n: usize,
    /// Directions, 1 to 4.
    pub d: usize,
    /// n * d, as in a step.
    pub fwd: &'a [u32],
    /// n * d, as in a step.
    pub bwd: &'a [u32],
    /// Of any length.
    pub text: &'a [u8],
    /// n * d. Written: a line's J at the lowest bond, by its entry i * d + e, that joins its two sites in either sense and that
    /// no earlier line has; 0 at bonds without a line.
    pub couplings: &'a mut [i32],
}

/// Couplings as an edge list, those that are not 0, in the order of their entries, each from its site to its forward
/// neighbour: every field is taken.
#[derive(Debug, Default)]
pub struct WriteEdges<'a> {
    /// Sites, 1 to 4096.
    pub n: usize,
    /// Directions, 1 to 4.
    pub d: usize,
    /// n * d, as in a step.
    pub fwd: &'a [u32],
    /// n * d, as in a step.
    pub bwd: &'a [u32],
    /// n * d, each from -1,000,000 to 1,000,000.
    pub couplings: &'a [i32],
    /// The list is written to its front, and the rest of it is kept. [`EDGES_ROOM`] bytes are room for every list.
    pub text: &'a mut [u8],
}

/// The longest edge list, in bytes: 16,384 lines and the first one.
pub const EDGES_ROOM: usize = 302451;

/// A text of frames, as docs/FRAMES.md has them, and where its answer goes.
#[derive(Debug, Default)]
pub struct Frames<'a> {
    /// Of any length.
    pub text: &'a [u8],
    /// The answer is written to its front, and the rest of it is kept. [`FRAMES_ROOM`] bytes are room for every answer.
    pub out: &'a mut [u8],
}

/// The longest answer to a text of frames, in bytes.
pub const FRAMES_ROOM: usize = 6157;
