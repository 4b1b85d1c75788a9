//! The test of a sweep, and a task's three steps. Each pointer goes with the length of the slice that it was taken from, and slices that
//! are written overlap no other.
use crate::answers::{Refusal, Stepped};
use crate::calls::{Coding, Form, Mode, Sweep, TaskChoose, TaskLabel, TaskWrite};
use crate::foreign::{
    tsorvenk_task_choose, tsorvenk_task_label, tsorvenk_task_write, tsorvenk_test_sweep,
};
use crate::orders::row_of;
use crate::safe::{bytes_or_zeros, stepped};
use std::borrow::Cow;

fn done(number: u8) -> Result<(), Refusal> {
    match number {
        0 => Ok(()),
        number => Err(Refusal { number }),
    }
}

/// Whether a sweep's permutations are lent as numbers.
fn by_numbers(call: &Sweep) -> bool {
    let permutes = matches!(call.mode, Mode::Perm | Mode::Gperm);
    call.coding == Coding::Numbers && permutes && call.form != Form::Observe
}

/// The rows of a sweep's permutations: numbers are spelt out. What is no number gets a row that is no permutation, and both are
/// refused with 9.
pub(crate) fn rows_of<'a>(call: &Sweep<'a>) -> Cow<'a, [u8]> {
    match by_numbers(call) {
        true => {
            let row = |&number: &u8| row_of(number).unwrap_or_default();
            Cow::Owned(call.perms.iter().flat_map(row).collect())
        }
        false => Cow::Borrowed(call.perms),
    }
}

/// Whether [`sweep`](crate::sweep) would be refused, and with what. Nothing is written, and the same call may be made afterwards.
///
/// ```
/// use tsorvenk::{sweep, test_sweep, Form, Mode, Refusal, Sweep};
///
/// // one site that is its own neighbour, and two systems that differ
/// let (mut spins, mut member_sites) = ([1, -1], [9]);
/// let mut call = Sweep {
///     mode: Mode::Pair,
///     form: Form::Grow,
///     n: 1,
///     d: 1,
///     s: 2,
///     t: 1,
///     r: 2,
///     members: 2,
///     spins: &mut spins,
///     fwd: &[0],
///     bwd: &[0],
///     order: &[0, 1],
///     masks: &[0],
///     seeds: &[1],
///     member_sites: &mut member_sites,
///     ..Default::default()
/// };
/// assert_eq!(test_sweep(&call), Err(Refusal { number: 10 }));
/// call.seeds = &[0];
/// assert_eq!(test_sweep(&call), Ok(()));
/// assert_eq!(call.spins, [1, -1]);
/// assert_eq!(sweep(call)?.moved, 1);
/// assert_eq!(spins, [-1, 1]);
/// # Ok::<(), Refusal>(())
/// ```
pub fn test_sweep(call: &Sweep) -> Result<(), Refusal> {
    tested(call, call.spins, call.totals, &rows_of(call))
}

/// The same of these spins and totals, and of permutations whose rows are these.
#[rustfmt::skip]
pub(crate) fn tested(call: &Sweep, spins: &[i8], totals: &[i64], perms: &[u8]) -> Result<(), Refusal> {
    let (pins, owners) = (bytes_or_zeros(call.pins, call.n), bytes_or_zeros(call.owners, call.s));
    // numbers are of groups of five: any other is refused as a size, as a group of none is
    let members = if by_numbers(call) && call.members != 5 { 0 } else { call.members };
    done(unsafe {
        tsorvenk_test_sweep(
            call.mode as u8, call.form as u8, call.keeps as u8,
            call.n, call.d, call.s, call.team, call.t, call.r, members, owners.as_ptr(), owners.len(),
            spins.as_ptr(), spins.len(), totals.as_ptr(), totals.len(),
            call.fwd.as_ptr(), call.fwd.len(), call.bwd.as_ptr(), call.bwd.len(), pins.as_ptr(), pins.len(),
            call.couplings.as_ptr(), call.couplings.len(), call.order.as_ptr(), call.order.len(),
            call.masks.as_ptr(), call.masks.len(), call.temperatures.as_ptr(), call.temperatures.len(),
            call.cuts.as_ptr(), call.cuts.len(), call.references.as_ptr(), call.references.len(),
            call.seeds.as_ptr(), call.seeds.len(),
            call.flips.as_ptr(), call.flips.len(), perms.as_ptr(), perms.len(),
            call.greys.as_ptr(), call.greys.len(),
            call.labels.as_ptr(), call.labels.len(), call.grey_labels.as_ptr(), call.grey_labels.len(),
            call.counts.as_ptr(), call.counts.len(), call.sizes.as_ptr(), call.sizes.len(),
            call.member_sites.as_ptr(), call.member_sites.len(),
            call.found.as_ptr(), call.found.len(), call.grey_found.as_ptr(), call.grey_found.len(),
        )
    })
}

/// The first step of a task: what the move will answer, and all that it writes beside the spins.
///
/// The three steps one by one, as a machine that is sent a task makes them; [`Sweep::test`] makes tasks that carry their own buffers.
///
/// ```
/// use tsorvenk::{task_choose, task_label, task_write, Form, Mode, Stepped, TaskChoose, TaskLabel, TaskWrite};
///
/// // a ring of four; the two members differ at the sites 0, 1 and 3
/// let mut rows = [1, 1, 1, 1, -1, -1, 1, -1];
/// let (mut member_sites, mut area) = ([9; 4], [9; 4]);
/// let (mode, form, n, d, members, seed) = (Mode::Pair, Form::Grow, 4, 1, 2, 1);
/// let (fwd, bwd) = (&[1, 2, 3, 0], &[3, 0, 1, 2]);
/// let labelled = task_label(TaskLabel {
///     mode, form, n, d, members, seed, fwd, bwd,
///     rows: &rows,
///     member_sites: &mut member_sites,
///     ..Default::default()
/// })?;
/// assert_eq!((labelled, member_sites), (Stepped::Moved, [1, 1, 0, 1]));
/// task_choose(TaskChoose {
///     mode, form, n, d, members, seed,
///     rows: &rows,
///     member_sites: &member_sites,
///     area: &mut area,
///     ..Default::default()
/// })?;
/// assert_eq!(area, [0b10, 0b10, 9, 0b10]);
/// task_write(TaskWrite {
///     mode, form, n, d, members,
///     rows: &mut rows,
///     member_sites: &member_sites,
///     area: &area,
///     ..Default::default()
/// })?;
/// assert_eq!(rows, [-1, -1, 1, -1, 1, 1, 1, 1]);
/// # Ok::<(), tsorvenk::Refusal>(())
/// ```
#[inline]
#[rustfmt::skip]
pub fn task_label(call: TaskLabel) -> Result<Stepped, Refusal> {
    let pins = bytes_or_zeros(call.pins, call.n);
    stepped(unsafe {
        tsorvenk_task_label(
            call.mode as u8, call.form as u8, call.n, call.d, call.members, call.rows.as_ptr(), call.rows.len(),
            call.fwd.as_ptr(), call.fwd.len(), call.bwd.as_ptr(), call.bwd.len(), pins.as_ptr(), pins.len(),
            call.couplings.as_ptr(), call.couplings.len(),
            call.temperature, call.cuts.as_ptr(), call.cuts.len(), call.reference, call.seed,
            call.flips.as_ptr(), call.flips.len(), call.perms.as_ptr(), call.perms.len(),
            call.greys.as_ptr(), call.greys.len(),
            call.labels.as_mut_ptr(), call.labels.len(), call.grey_labels.as_mut_ptr(), call.grey_labels.len(),
            call.counts.as_mut_ptr(), call.counts.len(), call.sizes.as_mut_ptr(), call.sizes.len(),
            call.member_sites.as_mut_ptr(), call.member_sites.len(),
            call.found.as_mut_ptr(), call.found.len(), call.grey_found.as_mut_ptr(), call.grey_found.len(),
            call.blue.as_mut_ptr(), call.blue.len(),
        )
    })
}

/// The second step of a task: the columns after the move. The example of [`task_label`] has it.
#[inline]
#[rustfmt::skip]
pub fn task_choose(call: TaskChoose) -> Result<(), Refusal> {
    let pins = bytes_or_zeros(call.pins, call.n);
    done(unsafe {
        tsorvenk_task_choose(
            call.mode as u8, call.form as u8, call.n, call.d, call.members, call.rows.as_ptr(), call.rows.len(),
            pins.as_ptr(), pins.len(), call.reference, call.seed,
            call.flips.as_ptr(), call.flips.len(), call.perms.as_ptr(), call.perms.len(),
            call.greys.as_ptr(), call.greys.len(),
            call.labels.as_ptr(), call.labels.len(), call.grey_labels.as_ptr(), call.grey_labels.len(),
            call.member_sites.as_ptr(), call.member_sites.len(), call.blue.as_ptr(), call.blue.len(),
            call.area.as_mut_ptr(), call.area.len(),
        )
    })
}

/// The third step of a task: its rows and totals. The example of [`task_label`] has it.
#[inline]
#[rustfmt::skip]
pub fn task_write(call: TaskWrite) -> Result<(), Refusal> {
    done(unsafe {
        tsorvenk_task_write(
            call.mode as u8, call.form as u8, call.keeps as u8, call.n, call.d, call.members,
            call.rows.as_mut_ptr(), call.rows.len(), call.totals.as_mut_ptr(), call.totals.len(),
            call.fwd.as_ptr(), call.fwd.len(), call.bwd.as_ptr(), call.bwd.len(),
            call.couplings.as_ptr(), call.couplings.len(),
            call.member_sites.as_ptr(), call.member_sites.len(), call.area.as_ptr(), call.area.len(),
        )
    })
}
