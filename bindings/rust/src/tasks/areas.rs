//! How the buffers of a sweep fall into those of its tasks.
use crate::calls::{Form, Mode, Sweep};
use std::mem::take;

/// The length of each buffer that one task takes; 0 where the mode and form do not take it.
pub(super) struct Each {
    pub cuts: usize,
    pub references: usize,
    pub seeds: usize,
    pub flips: usize,
    pub perms: usize,
    pub greys: usize,
    labels: usize,
    grey_labels: usize,
    counts: usize,
    sizes: usize,
    member_sites: usize,
    found: usize,
    grey_found: usize,
    pub blue: usize,
}

impl Each {
    pub fn of(mode: Mode, form: Form, n: usize, d: usize, members: usize) -> Each {
        let when = |taken: bool, length: usize| if taken { length } else { 0 };
        let (cmr, permutes) = (mode == Mode::Cmr, matches!(mode, Mode::Perm | Mode::Gperm));
        let (moves, grow) = (form != Form::Observe, form == Form::Grow);
        let grey = cmr && moves && !grow;
        // SW has a choice for each component, of which there are no more than sites
        let entries = if form == Form::Sw { n } else { 1 };
        Each {
            cuts: when(matches!(mode, Mode::Jorg | Mode::Cmr), n * d),
            references: when(mode == Mode::Gperm, 1),
            seeds: when(matches!(form, Form::Wolff | Form::Grow), 1),
            flips: when(form == Form::Sw && !permutes, n),
            perms: when(permutes && moves, entries * members),
            greys: when(cmr && moves, entries),
            labels: when(!grow, n),
            grey_labels: when(grey, n),
            counts: when(!grow, n + 1),
            sizes: when(!grow, 4),
            member_sites: when(grow, n),
            found: when(!grow, 1),
            grey_found: when(grey, 1),
            blue: when(grow && cmr, n),
        }
    }
}

/// A task's areas of the buffers that its first step writes.
#[derive(Debug)]
pub(super) struct Outputs<'a> {
    pub labels: &'a mut [u32],
    pub grey_labels: &'a mut [u32],
    pub counts: &'a mut [u32],
    pub sizes: &'a mut [u32],
    pub found: &'a mut [u32],
    pub grey_found: &'a mut [u32],
    pub member_sites: &'a mut [u8],
}

/// A task's part of a buffer that is read.
pub(super) fn part<T>(buffer: &[T], each: usize, number: usize) -> &[T] {
    match each {
        0 => &[],
        _ => &buffer[number * each..][..each],
    }
}

/// A buffer in pieces, one for each task; where it is not taken, and past the last, they are empty.
fn pieces<'a, T>(buffer: &mut &'a mut [T], each: usize) -> impl FnMut() -> &'a mut [T] {
    let mut pieces = take(buffer).chunks_exact_mut(each.max(1));
    move || match each {
        0 => Default::default(),
        _ => pieces.next().unwrap_or_default(),
    }
}

/// The areas of every task, masked ones too, taken out of the sweep.
pub(super) fn areas<'a>(sweep: &mut Sweep<'a>, each: &Each, groups: usize) -> Vec<Outputs<'a>> {
    let mut labels = pieces(&mut sweep.labels, each.labels);
    let mut grey_labels = pieces(&mut sweep.grey_labels, each.grey_labels);
    let mut counts = pieces(&mut sweep.counts, each.counts);
    let mut sizes = pieces(&mut sweep.sizes, each.sizes);
    let mut member_sites = pieces(&mut sweep.member_sites, each.member_sites);
    let mut found = pieces(&mut sweep.found, each.found);
    let mut grey_found = pieces(&mut sweep.grey_found, each.grey_found);
    let area = |_| Outputs {
        labels: labels(),
        grey_labels: grey_labels(),
        counts: counts(),
        sizes: sizes(),
        member_sites: member_sites(),
        found: found(),
        grey_found: grey_found(),
    };
    (0..sweep.t * groups).map(area).collect()
}
