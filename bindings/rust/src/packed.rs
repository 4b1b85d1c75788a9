//! One byte for a site's whole group. Each pointer goes with the length of the slice that it was taken from, and slices that are
//! written overlap no other.
use crate::answers::{Refusal, Stepped};
use crate::calls::{Pack, PackedStep, Unpack};
use crate::foreign::{tsorvenk_pack, tsorvenk_packed_step, tsorvenk_unpack};
use crate::safe::{bytes_or_zeros, stepped};

fn done(number: u8) -> Result<(), Refusal> {
    match number {
        0 => Ok(()),
        number => Err(Refusal { number }),
    }
}

/// The columns of a group's rows.
///
/// ```
/// use tsorvenk::{pack, unpack, Pack, Refusal, Unpack};
///
/// // three members of two sites: at site 0 the first and the last are +1, at site 1 the last alone
/// let (mut rows, mut columns) = ([1, -1, -1, -1, 1, 1], [0; 2]);
/// pack(Pack { n: 2, members: 3, rows: &rows, columns: &mut columns })?;
/// assert_eq!(columns, [0b101, 0b100]);
/// unpack(Unpack { n: 2, members: 3, columns: &[0b011, 0b100], rows: &mut rows })?;
/// assert_eq!(rows, [1, -1, 1, -1, -1, 1]);
/// let high = Unpack { n: 2, members: 3, columns: &[0b1000, 0], rows: &mut rows };
/// assert_eq!(unpack(high), Err(Refusal { number: 3 }));
/// # Ok::<(), Refusal>(())
/// ```
#[inline]
#[rustfmt::skip]
pub fn pack(call: Pack) -> Result<(), Refusal> {
    done(unsafe {
        tsorvenk_pack(
            call.n, call.members, call.rows.as_ptr(), call.rows.len(), call.columns.as_mut_ptr(), call.columns.len(),
        )
    })
}

/// The rows of a group's columns, which pack to them. The example is that of [`pack`].
#[inline]
#[rustfmt::skip]
pub fn unpack(call: Unpack) -> Result<(), Refusal> {
    done(unsafe {
        tsorvenk_unpack(
            call.n, call.members, call.columns.as_ptr(), call.columns.len(), call.rows.as_mut_ptr(), call.rows.len(),
        )
    })
}

/// One move or observation of one group, lent as a byte for each site.
///
/// ```
/// use tsorvenk::{packed_step, Form, Mode, PackedStep, Stepped};
///
/// // a ring of four; the two members differ at the sites 0, 1 and 3
/// let mut columns = [0b01, 0b01, 0b11, 0b01];
/// let mut member_sites = [9; 4];
/// let stepped = packed_step(PackedStep {
///     mode: Mode::Pair,
///     form: Form::Grow,
///     n: 4,
///     d: 1,
///     members: 2,
///     columns: &mut columns,
///     fwd: &[1, 2, 3, 0],
///     bwd: &[3, 0, 1, 2],
///     seed: 1,
///     member_sites: &mut member_sites,
///     ..Default::default()
/// })?;
/// assert_eq!(stepped, Stepped::Moved);
/// assert_eq!(member_sites, [1, 1, 0, 1]);
/// assert_eq!(columns, [0b10, 0b10, 0b11, 0b10]);
/// # Ok::<(), tsorvenk::Refusal>(())
/// ```
#[inline]
#[rustfmt::skip]
pub fn packed_step(call: PackedStep) -> Result<Stepped, Refusal> {
    let pins = bytes_or_zeros(call.pins, call.n);
    stepped(unsafe {
        tsorvenk_packed_step(
            call.mode as u8, call.form as u8, call.coding as u8, call.keeps as u8, call.n, call.d, call.members,
            call.columns.as_mut_ptr(), call.columns.len(), call.totals.as_mut_ptr(), call.totals.len(),
            call.fwd.as_ptr(), call.fwd.len(), call.bwd.as_ptr(), call.bwd.len(), pins.as_ptr(), pins.len(),
            call.couplings.as_ptr(), call.couplings.len(),
            call.temperature, call.cuts.as_ptr(), call.cuts.len(), call.reference, call.seed,
            call.flips.as_ptr(), call.flips.len(), call.perms.as_ptr(), call.perms.len(),
            call.greys.as_ptr(), call.greys.len(),
            call.labels.as_mut_ptr(), call.labels.len(), call.grey_labels.as_mut_ptr(), call.grey_labels.len(),
            call.counts.as_mut_ptr(), call.counts.len(), call.sizes.as_mut_ptr(), call.sizes.len(),
            call.member_sites.as_mut_ptr(), call.member_sites.len(),
            call.found.as_mut_ptr(), call.found.len(), call.grey_found.as_mut_ptr(), call.grey_found.len(),
        )
    })
}
