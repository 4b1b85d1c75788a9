//! A task's three steps (14/14).
use super::{Form, Keeps, Mode};

/// The first step of a task of N = `members` systems, on rows of its own: what a [`Step`](crate::Step) does beside the spins, with
/// s = N, one owner, no totals and the group 0, 1 .. N - 1. Permutations are rows.
#[derive(Debug, Default)]
pub struct TaskLabel<'a> {
    /// Houd if left out.
    pub mode: Mode,
    /// SW if left out.
    pub form: Form,
    /// Sites, 1 to 4096.
    pub n: usize,
    /// Directions, 1 to 4.
    pub d: usize,
    /// The group's size N, 2 to 8 (CMR: 2, houd: 2 unless it observes).
    pub members: usize,
    /// N * n: the spin of member k at site i is at k * n + i, +1 or -1; the members stand in the group's order.
    pub rows: &'a [i8],
    /// n * d, as in a step.
    pub fwd: &'a [u32],
    /// n * d, as in a step.
    pub bwd: &'a [u32],
    /// n, as in a step. Left out, `None`, nothing is pinned.
    pub pins: Option<&'a [u8]>,
    /// n * d, as in a step. Jörg, CMR, in every form.
    pub couplings: &'a [i32],
    /// As in a step. Jörg, CMR, in every form.
    pub temperature: f32,
    /// n * d, as in a step. Jörg, CMR, in every form.
    pub cuts: &'a [f32],
    /// A site. Gperm, in every form.
    pub reference: usize,
    /// A site that acts, if any does. Wolff and grow.
    pub seed: usize,
    /// n, as in a step. SW of houd, pair, Jörg, CMR.
    pub flips: &'a [u8],
    /// SW: n rows of N, Wolff and grow: one, as in a step. SW, Wolff and grow of perm, gperm.
    pub perms: &'a [u8],
    /// SW: n, Wolff and grow: one, as in a step. SW, Wolff and grow of CMR.
    pub greys: &'a [u8],
    /// n. Written, as by a step. All forms but grow.
    pub labels: &'a mut [u32],
    /// n. Written, as by a step. SW and Wolff of CMR.
    pub grey_labels: &'a mut [u32],
    /// n + 1. Written, as by a step. All forms but grow.
    pub counts: &'a mut [u32],
    /// 4. Written, as by a step. All forms but grow.
    pub sizes: &'a mut [u32],
    /// n. Written, as by a step. Grow.
    pub member_sites: &'a mut [u8],
    /// 1. Written, as by a step. All forms but grow.
    pub found: &'a mut [u32],
    /// 1. Written, as by a step. SW and Wolff of CMR.
    pub grey_found: &'a mut [u32],
    /// n. Written: 1 at the sites that blue bonds join to the seed, the seed too, else 0. Grow of CMR.
    pub blue: &'a mut [u8],
}

/// The second step: from what the first found and the choices, the column of each site after the move. Whether it was found in these
/// rows is not asked.
#[derive(Debug, Default)]
pub struct TaskChoose<'a> {
    /// Houd if left out.
    pub mode: Mode,
    /// SW if left out.
    pub form: Form,
    /// Sites, 1 to 4096.
    pub n: usize,
    /// Directions, 1 to 4.
    pub d: usize,
    /// The group's size N, as in the first step.
    pub members: usize,
    /// N * n, as lent to the first step.
    pub rows: &'a [i8],
    /// n, as in a step. Left out, `None`, nothing is pinned.
    pub pins: Option<&'a [u8]>,
    /// A site. Gperm, in every form.
    pub reference: usize,
    /// A site. Wolff and grow.
    pub seed: usize,
    /// n, as in a step. SW of houd, pair, Jörg, CMR.
    pub flips: &'a [u8],
    /// SW: n rows of N, Wolff and grow: one, as in a step. SW, Wolff and grow of perm, gperm.
    pub perms: &'a [u8],
    /// SW: n, Wolff and grow: one, as in a step. SW, Wolff and grow of CMR.
    pub greys: &'a [u8],
    /// n, each below n. SW and Wolff.
    pub labels: &'a [u32],
    /// n, each below n. SW and Wolff of CMR.
    pub grey_labels: &'a [u32],
    /// n, each 0 or 1. Grow.
    pub member_sites: &'a [u8],
    /// n, each 0 or 1. Grow of CMR.
    pub blue: &'a [u8],
    /// n. Written: bit k of a site's byte is set where member k is +1 there after the move, and bits from N upwards are 0; grow: at
    /// the member sites alone, and other bytes stay. To observe gives the columns as they are.
    pub area: &'a mut [u8],
}

/// The third step: the rows become what the columns show, and the totals are brought current.
#[derive(Debug, Default)]
pub struct TaskWrite<'a> {
    /// Houd if left out.
    pub mode: Mode,
    /// SW if left out.
    pub form: Form,
    /// Nothing if left out.
    pub keeps: Keeps,
    /// Sites, 1 to 4096.
    pub n: usize,
    /// Directions, 1 to 4.
    pub d: usize,
    /// The group's size N, as in the first step.
    pub members: usize,
    /// N * n, as lent to the first step. Written: a spin is +1 where its bit of the site's byte is set, and else -1; grow: at the
    /// member sites alone.
    pub rows: &'a mut [i8],
    /// N, in the members' order. Written: each changes by its row's energy after less its energy before. Totals kept, in SW, Wolff
    /// and grow.
    pub totals: &'a mut [i64],
    /// n * d, as in a step. Totals kept.
    pub fwd: &'a [u32],
    /// n * d, as in a step. Totals kept.
    pub bwd: &'a [u32],
    /// n * d, as in a step. Totals kept.
    pub couplings: &'a [i32],
    /// n, each 0 or 1. Grow.
    pub member_sites: &'a [u8],
    /// n, each without a bit from N upwards; in grow this is asked at the member sites alone.
    pub area: &'a [u8],
}
