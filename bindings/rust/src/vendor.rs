//! The check of a vendor's moves. Each pointer goes with the length of the slice that it was taken from, and slices that are written
//! overlap no other.
use crate::answers::{Checked, Refusal};
use crate::calls::CheckVendor;
use crate::foreign::tsorvenk_check_vendor;
use crate::safe::bytes_or_zeros;

/// Whether spins before and after are those of a move in perm or gperm, and by which permutations. Whatever [`step`](crate::step)
/// writes in that mode, in any form and with these pins, is accepted.
///
/// ```
/// use tsorvenk::{check_vendor, CheckVendor, Checked, Mode, Refusal};
///
/// // three members of a ring of four: the sites 0, 1 and 3 act and hang together, and site 2 does not act
/// let before = [1, 1, 1, 1, -1, 1, 1, 1, 1, -1, 1, -1];
/// let mut rows = [9; 12];
/// let mut check = |after: &[i8]| {
///     check_vendor(CheckVendor {
///         mode: Mode::Perm,
///         n: 4,
///         d: 1,
///         members: 3,
///         fwd: &[1, 2, 3, 0],
///         bwd: &[3, 0, 1, 2],
///         before: &before,
///         after,
///         rows: &mut rows,
///         ..Default::default()
///     })
/// };
/// // each member has what the next one had, but at site 2
/// assert_eq!(check(&[-1, 1, 1, 1, 1, -1, 1, -1, 1, 1, 1, 1]), Ok(Checked::Accepted));
/// // site 2, which is the component of number 1, may not differ
/// assert_eq!(check(&[1, 1, -1, 1, -1, 1, 1, 1, 1, -1, 1, -1]), Ok(Checked::Fault(1)));
/// assert_eq!(check(&[0; 12]), Err(Refusal { number: 3 }));
/// assert_eq!(rows, [1, 2, 0, 0, 1, 2, 0, 1, 2, 0, 1, 2]);
/// ```
#[inline]
#[rustfmt::skip]
pub fn check_vendor(call: CheckVendor) -> Result<Checked, Refusal> {
    let pins = bytes_or_zeros(call.pins, call.n);
    let mut fault = [0u32];
    let number = unsafe {
        tsorvenk_check_vendor(
            call.mode as u8, call.n, call.d, call.members, call.reference,
            call.fwd.as_ptr(), call.fwd.len(), call.bwd.as_ptr(), call.bwd.len(), pins.as_ptr(), pins.len(),
            call.before.as_ptr(), call.before.len(), call.after.as_ptr(), call.after.len(),
            call.rows.as_mut_ptr(), call.rows.len(), fault.as_mut_ptr(), fault.len(),
        )
    };
    match number {
        0 => Ok(Checked::Accepted),
        67 => Ok(Checked::Fault(fault[0])),
        number => Err(Refusal { number }),
    }
}
