//! Safe calls. Each pointer goes with the length of the slice that it was taken from, slices that are written overlap no
//! other, and the library is proved to stay inside.
use crate::answers::{NoRoom, Refusal, Stepped, Swept};
use crate::calls::{Frames, Label, ReadEdges, Step, Sweep, WriteEdges};
use crate::foreign::*;

/// What is lent where a table of bytes is left out: as many zeros as there are sites or systems. More sites than these are refused
/// with 1, whatever the length of the pins is, and more systems with 2.
static ZEROS: [u8; 4096] = [0; 4096];

/// Pins or owners, or zeros where they are left out.
pub(crate) fn bytes_or_zeros(bytes: Option<&[u8]>, wanted: usize) -> &[u8] {
    bytes.unwrap_or(&ZEROS[..wanted.min(ZEROS.len())])
}

/// One move or observation of one group. The example of the [crate] is one; this one grows from its seed and labels nothing.
///
/// ```
/// use tsorvenk::{step, Form, Mode, Step, Stepped};
///
/// // a ring of four; the two systems differ at the sites 0, 1 and 3
/// let mut spins = [1, 1, 1, 1, -1, -1, 1, -1];
/// let mut member_sites = [9; 4];
/// let stepped = step(Step {
///     mode: Mode::Pair,
///     form: Form::Grow,
///     n: 4,
///     d: 1,
///     s: 2,
///     spins: &mut spins,
///     fwd: &[1, 2, 3, 0],
///     bwd: &[3, 0, 1, 2],
///     group: &[0, 1],
///     seed: 1,
///     member_sites: &mut member_sites,
///     ..Default::default()
/// })?;
/// assert_eq!(stepped, Stepped::Moved);
/// assert_eq!(member_sites, [1, 1, 0, 1]);
/// assert_eq!(spins, [-1, -1, 1, -1, 1, 1, 1, 1]);
/// # Ok::<(), tsorvenk::Refusal>(())
/// ```
#[inline]
#[rustfmt::skip]
pub fn step(call: Step) -> Result<Stepped, Refusal> {
    let (pins, owners) = (bytes_or_zeros(call.pins, call.n), bytes_or_zeros(call.owners, call.s));
    let number = unsafe {
        tsorvenk_step(
            call.mode as u8, call.form as u8, call.coding as u8, call.keeps as u8, call.n, call.d, call.s,
            call.team, owners.as_ptr(), owners.len(),
            call.spins.as_mut_ptr(), call.spins.len(), call.totals.as_mut_ptr(), call.totals.len(),
            call.fwd.as_ptr(), call.fwd.len(), call.bwd.as_ptr(), call.bwd.len(), pins.as_ptr(), pins.len(),
            call.couplings.as_ptr(), call.couplings.len(), call.group.as_ptr(), call.group.len(),
            call.temperature, call.cuts.as_ptr(), call.cuts.len(), call.reference, call.seed,
            call.flips.as_ptr(), call.flips.len(), call.perms.as_ptr(), call.perms.len(),
            call.greys.as_ptr(), call.greys.len(),
            call.labels.as_mut_ptr(), call.labels.len(), call.grey_labels.as_mut_ptr(), call.grey_labels.len(),
            call.counts.as_mut_ptr(), call.counts.len(), call.sizes.as_mut_ptr(), call.sizes.len(),
            call.member_sites.as_mut_ptr(), call.member_sites.len(),
            call.found.as_mut_ptr(), call.found.len(), call.grey_found.as_mut_ptr(), call.grey_found.len(),
        )
    };
    stepped(number)
}

/// What the number of a step says, in either layout.
#[inline]
pub(crate) fn stepped(number: u8) -> Result<Stepped, Refusal> {
    match number {
        0 => Ok(Stepped::Moved),
        64 => Ok(Stepped::Idle),
        66 => Ok(Stepped::Held),
        number => Err(Refusal { number }),
    }
}

/// A sweep: every task of every unmasked temperature, or a refusal before anything is written.
///
/// ```
/// use tsorvenk::{sweep, Form, Mode, Sweep};
///
/// // one site that is its own neighbour, four systems at one temperature, in pairs: (+, -) acts and (+, +) does not
/// let mut spins = [1, -1, 1, 1];
/// let (mut labels, mut counts, mut sizes, mut found) = ([0; 2], [0; 4], [0; 8], [0; 2]);
/// let swept = sweep(Sweep {
///     mode: Mode::Pair,
///     form: Form::Wolff,
///     n: 1,
///     d: 1,
///     s: 4,
///     t: 1,
///     r: 4,
///     members: 2,
///     spins: &mut spins,
///     fwd: &[0],
///     bwd: &[0],
///     order: &[0, 1, 2, 3],
///     masks: &[0],
///     seeds: &[0, 0],
///     labels: &mut labels,
///     counts: &mut counts,
///     sizes: &mut sizes,
///     found: &mut found,
///     ..Default::default()
/// })?;
/// assert_eq!((swept.idle, swept.moved, swept.held), (1, 1, 0));
/// assert_eq!(spins, [-1, 1, 1, 1]);
/// assert_eq!((found, counts), ([1, 1], [0, 1, 0, 0]), "what does not act is found and not counted");
/// # Ok::<(), tsorvenk::Refusal>(())
/// ```
#[inline]
#[rustfmt::skip]
pub fn sweep(call: Sweep) -> Result<Swept, Refusal> {
    let (pins, owners) = (bytes_or_zeros(call.pins, call.n), bytes_or_zeros(call.owners, call.s));
    let mut outcomes = [0u32; 3];
    let number = unsafe {
        tsorvenk_sweep(
            call.mode as u8, call.form as u8, call.coding as u8, call.keeps as u8,
            call.n, call.d, call.s, call.team, call.t, call.r, call.members, owners.as_ptr(), owners.len(),
            call.spins.as_mut_ptr(), call.spins.len(), call.totals.as_mut_ptr(), call.totals.len(),
            call.fwd.as_ptr(), call.fwd.len(), call.bwd.as_ptr(), call.bwd.len(), pins.as_ptr(), pins.len(),
            call.couplings.as_ptr(), call.couplings.len(), call.order.as_ptr(), call.order.len(),
            call.masks.as_ptr(), call.masks.len(), call.temperatures.as_ptr(), call.temperatures.len(),
            call.cuts.as_ptr(), call.cuts.len(), call.references.as_ptr(), call.references.len(),
            call.seeds.as_ptr(), call.seeds.len(),
            call.flips.as_ptr(), call.flips.len(), call.perms.as_ptr(), call.perms.len(),
            call.greys.as_ptr(), call.greys.len(),
            call.labels.as_mut_ptr(), call.labels.len(), call.grey_labels.as_mut_ptr(), call.grey_labels.len(),
            call.counts.as_mut_ptr(), call.counts.len(), call.sizes.as_mut_ptr(), call.sizes.len(),
            call.member_sites.as_mut_ptr(), call.member_sites.len(),
            call.found.as_mut_ptr(), call.found.len(), call.grey_found.as_mut_ptr(), call.grey_found.len(),
            outcomes.as_mut_ptr(), outcomes.len(),
        )
    };
    match number {
        0 => Ok(Swept { idle: outcomes[0], moved: outcomes[1], held: outcomes[2] }),
        number => Err(Refusal { number }),
    }
}

/// The components of the bonds whose byte is 1, of which those count whose smallest site has the byte 1.
///
/// ```
/// use tsorvenk::{label, Label};
///
/// // a ring of four, broken in two places; the component of the first two sites does not count
/// let (mut labels, mut counts, mut sizes, mut found) = ([0; 4], [0; 5], [0; 4], [0]);
/// label(Label {
///     n: 4,
///     d: 1,
///     fwd: &[1, 2, 3, 0],
///     holds: &[1, 0, 1, 0],
///     counted: &[0, 1, 1, 1],
///     labels: &mut labels,
///     counts: &mut counts,
///     sizes: &mut sizes,
///     found: &mut found,
/// })?;
/// assert_eq!((labels, found), ([0, 0, 1, 1], [2]));
/// assert_eq!(counts, [0, 0, 1, 0, 0]);
/// assert_eq!(sizes, [2, 0, 0, 0]);
/// # Ok::<(), tsorvenk::Refusal>(())
/// ```
#[inline]
#[rustfmt::skip]
pub fn label(call: Label) -> Result<(), Refusal> {
    let number = unsafe {
        tsorvenk_label(
            call.n, call.d, call.fwd.as_ptr(), call.fwd.len(), call.holds.as_ptr(), call.holds.len(),
            call.counted.as_ptr(), call.counted.len(),
            call.labels.as_mut_ptr(), call.labels.len(), call.counts.as_mut_ptr(), call.counts.len(),
            call.sizes.as_mut_ptr(), call.sizes.len(), call.found.as_mut_ptr(), call.found.len(),
        )
    };
    match number {
        0 => Ok(()),
        number => Err(Refusal { number }),
    }
}

/// Fills the couplings from an edge list.
///
/// ```
/// use tsorvenk::{read_edges, ReadEdges, Refusal};
///
/// // a ring of three: the bonds are 1 to 2, 2 to 3 and 3 to 1, and the second has no line
/// let mut couplings = [9; 3];
/// let mut read = |text: &str| {
///     read_edges(ReadEdges {
///         n: 3,
///         d: 1,
///         fwd: &[1, 2, 0],
///         bwd: &[2, 0, 1],
///         text: text.as_bytes(),
///         couplings: &mut couplings,
///     })
/// };
/// assert_eq!(read("3 2\n1 3 -7\n1 2 5\n"), Ok(()));
/// assert_eq!(read("3 2\n1 3 -7\n1 2 +5\n"), Err(Refusal { number: 13 }));
/// assert_eq!(couplings, [5, 0, -7]);
/// ```
#[inline]
#[rustfmt::skip]
pub fn read_edges(call: ReadEdges) -> Result<(), Refusal> {
    let number = unsafe {
        tsorvenk_read_edges(
            call.n, call.d, call.fwd.as_ptr(), call.fwd.len(), call.bwd.as_ptr(), call.bwd.len(),
            call.text.as_ptr(), call.text.len(), call.couplings.as_mut_ptr(), call.couplings.len(),
        )
    };
    match number {
        0 => Ok(()),
        number => Err(Refusal { number }),
    }
}

/// The couplings as an edge list: the front of `text`, where it is written.
///
/// ```
/// use tsorvenk::{write_edges, Refusal, WriteEdges};
///
/// let mut text = [0; 20];
/// let mut write = |couplings: &[i32]| {
///     let (fwd, bwd) = (&[1, 2, 0], &[2, 0, 1]);
///     write_edges(WriteEdges { n: 3, d: 1, fwd, bwd, couplings, text: &mut text }).map(<[u8]>::to_vec)
/// };
/// assert_eq!(write(&[5, 0, -7]), Ok(b"3 2\n1 2 5\n3 1 -7\n".to_vec()));
/// assert_eq!(write(&[5, 1000, -7]), Err(Refusal { number: 2 }), "this list has 24 bytes");
/// ```
#[inline]
#[rustfmt::skip]
pub fn write_edges(call: WriteEdges<'_>) -> Result<&[u8], Refusal> {
    let WriteEdges { n, d, fwd, bwd, couplings, text } = call;
    let mut written = [0usize];
    let number = unsafe {
        tsorvenk_write_edges(
            n, d, fwd.as_ptr(), fwd.len(), bwd.as_ptr(), bwd.len(), couplings.as_ptr(), couplings.len(),
            text.as_mut_ptr(), text.len(), written.as_mut_ptr(), written.len(),
        )
    };
    match number {
        0 => Ok(&text[..written[0]]),
        number => Err(Refusal { number }),
    }
}

/// The answer to a text of frames: the front of `out`, where it is written. A text that the program refuses has an answer
/// too, the line that says so.
///
/// ```
/// use tsorvenk::{frames, Frames, NoRoom, FRAMES_ROOM};
///
/// let text = b"1000030102\n110101ff01ffff\n12000100020000\n130001\n14010001000100\n";
/// let mut out = [0; FRAMES_ROOM];
/// let answer = frames(Frames { text, out: &mut out })?;
/// assert_eq!(answer, b"20000000010002\n210000000100000000\n2201ffff0101ff\n");
/// assert_eq!(frames(Frames { text: b"10\n", out: &mut out })?, b"2f11\n");
/// assert_eq!(frames(Frames { text, out: &mut out[..4] }), Err(NoRoom));
/// # Ok::<(), NoRoom>(())
/// ```
#[inline]
#[rustfmt::skip]
pub fn frames(call: Frames<'_>) -> Result<&[u8], NoRoom> {
    let Frames { text, out } = call;
    let mut written = [0usize];
    let number = unsafe {
        tsorvenk_frames(
            text.as_ptr(), text.len(), out.as_mut_ptr(), out.len(), written.as_mut_ptr(), written.len(),
        )
    };
    match number {
        0 => Ok(&out[..written[0]]),
        _ => Err(NoRoom),
    }
}
