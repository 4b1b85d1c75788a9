//! The published Rust counts every component, a site that does not act among them. Request 4/14 counts those that act: what the Rust has written
//! is brought to that before it is compared.
use crate::case::{Lent, Single, Swept};
use crate::model;

/// The four largest sizes that these counts have, in falling order and filled with 0.
fn largest(counts: &[u32]) -> [u32; 4] {
    let mut sizes = (1..counts.len())
        .rev()
        .flat_map(|size| std::iter::repeat_n(size as u32, counts[size] as usize));
    std::array::from_fn(|_| sizes.next().unwrap_or(0))
}

/// A site that does not act is a component of its own, so it goes from count 1; the sizes are worked out again.
pub fn take_out(acting: &[bool], counts: &mut [u32], sizes: &mut [u32]) {
    assert_eq!(
        sizes,
        largest(counts),
        "the Rust's sizes are those of its counts"
    );
    counts[1] -= acting.iter().filter(|&&acts| !acts).count() as u32;
    sizes.copy_from_slice(&largest(counts));
}

/// The same of what the Rust has written for one move.
pub fn take_out_of_single(case: &Single, lent: &mut Lent) {
    let acting = model::active(&case.step(&mut case.lent.clone()));
    take_out(&acting, &mut lent.counts, &mut lent.sizes);
}

/// The same of one task of a sweep, in its areas.
pub fn take_out_of_task(acting: &[bool], task: usize, lent: &mut Lent) {
    let counts = acting.len() + 1;
    take_out(
        acting,
        &mut lent.counts[task * counts..(task + 1) * counts],
        &mut lent.sizes[task * 4..task * 4 + 4],
    );
}

/// The same of every unmasked task.
pub fn take_out_of_swept(case: &Swept, lent: &mut Lent) {
    let groups = case.r / case.members;
    let mut before = case.lent.clone();
    let call = case.sweep(&mut before);
    for task in (0..case.t * groups).filter(|task| case.masks[task / groups] == 0) {
        take_out_of_task(&model::active_in_task(&call, task), task, lent);
    }
}
