//! Exported functions as C calls them, with what the crate `tsorvenk` cannot say: numbers that are no mode, form, coding or keeps, and rows and
//! outputs of any length. None where the library was not there at build time.
use calls::{CheckVendor, PackedStep, Step, Sweep};

/// Mode, form, coding and keeps as numbers.
pub type Numbers = [u8; 4];

/// A move in place of whose mode, form, coding and keeps these numbers are lent.
pub fn step(numbers: Numbers, call: Step) -> Option<u8> {
    #[cfg(port)]
    return Some(linked::step(numbers, call));
    #[cfg(not(port))]
    {
        let _ = (numbers, call);
        None
    }
}

/// The same of a move on bytes.
pub fn packed_step(numbers: Numbers, call: PackedStep) -> Option<u8> {
    #[cfg(port)]
    return Some(linked::packed_step(numbers, call));
    #[cfg(not(port))]
    {
        let _ = (numbers, call);
        None
    }
}

/// The same of a sweep, with the three counts that it writes.
pub fn sweep(numbers: Numbers, call: Sweep, outcomes: &mut [u32]) -> Option<u8> {
    #[cfg(port)]
    return Some(linked::sweep(numbers, call, outcomes));
    #[cfg(not(port))]
    {
        let _ = (numbers, call, outcomes);
        None
    }
}

/// A check of a vendor's moves in place of whose mode this number is lent, with the component at fault that it writes.
pub fn check_vendor(mode: u8, call: CheckVendor, fault: &mut [u32]) -> Option<u8> {
    #[cfg(port)]
    return Some(linked::check_vendor(mode, call, fault));
    #[cfg(not(port))]
    {
        let _ = (mode, call, fault);
        None
    }
}

pub fn row_of(number: u8, row: &mut [u8]) -> Option<u8> {
    #[cfg(port)]
    return Some(linked::row_of(number, row));
    #[cfg(not(port))]
    {
        let _ = (number, row);
        None
    }
}

pub fn number_of(row: &[u8], number: &mut [u8]) -> Option<u8> {
    #[cfg(port)]
    return Some(linked::number_of(row, number));
    #[cfg(not(port))]
    {
        let _ = (row, number);
        None
    }
}

/// Each pointer goes with the length of the buffer that it was taken from, and no two buffers overlap.
#[cfg(port)]
#[rustfmt::skip]
mod linked {
    use super::Numbers;
    use calls::{CheckVendor, PackedStep, Step, Sweep};

    extern "C" {
        fn tsorvenk_step(
            mode: u8, form: u8, coding: u8, keeps: u8, n: usize, d: usize, s: usize,
            team: u8, owners: *const u8, owners_len: usize,
            spins: *mut i8, spins_len: usize, totals: *mut i64, totals_len: usize,
            fwd: *const u32, fwd_len: usize, bwd: *const u32, bwd_len: usize, pins: *const u8, pins_len: usize,
            couplings: *const i32, couplings_len: usize, group: *const u32, group_len: usize,
            temperature: f32, cuts: *const f32, cuts_len: usize, reference: usize, seed: usize,
            flips: *const u8, flips_len: usize, perms: *const u8, perms_len: usize, greys: *const u8, greys_len: usize,
            labels: *mut u32, labels_len: usize, grey_labels: *mut u32, grey_labels_len: usize,
            counts: *mut u32, counts_len: usize, sizes: *mut u32, sizes_len: usize,
            member_sites: *mut u8, member_sites_len: usize,
            found: *mut u32, found_len: usize, grey_found: *mut u32, grey_found_len: usize,
        ) -> u8;
        fn tsorvenk_packed_step(
            mode: u8, form: u8, coding: u8, keeps: u8, n: usize, d: usize, members: usize,
            columns: *mut u8, columns_len: usize, totals: *mut i64, totals_len: usize,
            fwd: *const u32, fwd_len: usize, bwd: *const u32, bwd_len: usize, pins: *const u8, pins_len: usize,
            couplings: *const i32, couplings_len: usize,
            temperature: f32, cuts: *const f32, cuts_len: usize, reference: usize, seed: usize,
            flips: *const u8, flips_len: usize, perms: *const u8, perms_len: usize, greys: *const u8, greys_len: usize,
            labels: *mut u32, labels_len: usize, grey_labels: *mut u32, grey_labels_len: usize,
            counts: *mut u32, counts_len: usize, sizes: *mut u32, sizes_len: usize,
            member_sites: *mut u8, member_sites_len: usize,
            found: *mut u32, found_len: usize, grey_found: *mut u32, grey_found_len: usize,
        ) -> u8;
        fn tsorvenk_sweep(
            mode: u8, form: u8, coding: u8, keeps: u8, n: usize, d: usize, s: usize,
            team: u8, t: usize, r: usize, members: usize, owners: *const u8, owners_len: usize,
            spins: *mut i8, spins_len: usize, totals: *mut i64, totals_len: usize,
            fwd: *const u32, fwd_len: usize, bwd: *const u32, bwd_len: usize, pins: *const u8, pins_len: usize,
            couplings: *const i32, couplings_len: usize, order: *const u32, order_len: usize,
            masks: *const u8, masks_len: usize, temperatures: *const f32, temperatures_len: usize,
            cuts: *const f32, cuts_len: usize, references: *const u32, references_len: usize,
            seeds: *const u32, seeds_len: usize,
            flips: *const u8, flips_len: usize, perms: *const u8, perms_len: usize, greys: *const u8, greys_len: usize,
            labels: *mut u32, labels_len: usize, grey_labels: *mut u32, grey_labels_len: usize,
            counts: *mut u32, counts_len: usize, sizes: *mut u32, sizes_len: usize,
            member_sites: *mut u8, member_sites_len: usize,
            found: *mut u32, found_len: usize, grey_found: *mut u32, grey_found_len: usize,
            outcomes: *mut u32, outcomes_len: usize,
        ) -> u8;
        fn tsorvenk_check_vendor(
            mode: u8, n: usize, d: usize, members: usize, reference: usize,
            fwd: *const u32, fwd_len: usize, bwd: *const u32, bwd_len: usize, pins: *const u8, pins_len: usize,
            before: *const i8, before_len: usize, after: *const i8, after_len: usize,
            rows: *mut u8, rows_len: usize, fault: *mut u32, fault_len: usize,
        ) -> u8;
        fn tsorvenk_row_of(number: u8, row: *mut u8, row_len: usize) -> u8;
        fn tsorvenk_number_of(row: *const u8, row_len: usize, number: *mut u8, number_len: usize) -> u8;
    }

    pub fn step([mode, form, coding, keeps]: Numbers, call: Step) -> u8 {
        unsafe {
            tsorvenk_step(
                mode, form, coding, keeps, call.n, call.d, call.s,
                call.team, call.owners.as_ptr(), call.owners.len(),
                call.spins.as_mut_ptr(), call.spins.len(), call.totals.as_mut_ptr(), call.totals.len(),
                call.fwd.as_ptr(), call.fwd.len(), call.bwd.as_ptr(), call.bwd.len(), call.pins.as_ptr(), call.pins.len(),
                call.couplings.as_ptr(), call.couplings.len(), call.group.as_ptr(), call.group.len(),
                call.temperature, call.cuts.as_ptr(), call.cuts.len(), call.reference, call.seed,
                call.flips.as_ptr(), call.flips.len(), call.perms.as_ptr(), call.perms.len(),
                call.greys.as_ptr(), call.greys.len(),
                call.labels.as_mut_ptr(), call.labels.len(), call.grey_labels.as_mut_ptr(), call.grey_labels.len(),
                call.counts.as_mut_ptr(), call.counts.len(), call.sizes.as_mut_ptr(), call.sizes.len(),
                call.member_sites.as_mut_ptr(), call.member_sites.len(),
                call.found.as_mut_ptr(), call.found.len(), call.grey_found.as_mut_ptr(), call.grey_found.len(),
            )
        }
    }

    pub fn packed_step([mode, form, coding, keeps]: Numbers, call: PackedStep) -> u8 {
        unsafe {
            tsorvenk_packed_step(
                mode, form, coding, keeps, call.n, call.d, call.members,
                call.columns.as_mut_ptr(), call.columns.len(), call.totals.as_mut_ptr(), call.totals.len(),
                call.fwd.as_ptr(), call.fwd.len(), call.bwd.as_ptr(), call.bwd.len(), call.pins.as_ptr(), call.pins.len(),
                call.couplings.as_ptr(), call.couplings.len(),
                call.temperature, call.cuts.as_ptr(), call.cuts.len(), call.reference, call.seed,
                call.flips.as_ptr(), call.flips.len(), call.perms.as_ptr(), call.perms.len(),
                call.greys.as_ptr(), call.greys.len(),
                call.labels.as_mut_ptr(), call.labels.len(), call.grey_labels.as_mut_ptr(), call.grey_labels.len(),
                call.counts.as_mut_ptr(), call.counts.len(), call.sizes.as_mut_ptr(), call.sizes.len(),
                call.member_sites.as_mut_ptr(), call.member_sites.len(),
                call.found.as_mut_ptr(), call.found.len(), call.grey_found.as_mut_ptr(), call.grey_found.len(),
            )
        }
    }

    pub fn sweep([mode, form, coding, keeps]: Numbers, call: Sweep, outcomes: &mut [u32]) -> u8 {
        unsafe {
            tsorvenk_sweep(
                mode, form, coding, keeps, call.n, call.d, call.s,
                call.team, call.t, call.r, call.members, call.owners.as_ptr(), call.owners.len(),
                call.spins.as_mut_ptr(), call.spins.len(), call.totals.as_mut_ptr(), call.totals.len(),
                call.fwd.as_ptr(), call.fwd.len(), call.bwd.as_ptr(), call.bwd.len(), call.pins.as_ptr(), call.pins.len(),
                call.couplings.as_ptr(), call.couplings.len(), call.order.as_ptr(), call.order.len(),
                call.masks.as_ptr(), call.masks.len(), call.temperatures.as_ptr(), call.temperatures.len(),
                call.cuts.as_ptr(), call.cuts.len(), call.references.as_ptr(), call.references.len(),
                call.seeds.as_ptr(), call.seeds.len(),
                call.flips.as_ptr(), call.flips.len(), call.perms.as_ptr(), call.perms.len(),
                call.greys.as_ptr(), call.greys.len(),
                call.labels.as_mut_ptr(), call.labels.len(), call.grey_labels.as_mut_ptr(), call.grey_labels.len(),
                call.counts.as_mut_ptr(), call.counts.len(), call.sizes.as_mut_ptr(), call.sizes.len(),
                call.member_sites.as_mut_ptr(), call.member_sites.len(),
                call.found.as_mut_ptr(), call.found.len(), call.grey_found.as_mut_ptr(), call.grey_found.len(),
                outcomes.as_mut_ptr(), outcomes.len(),
            )
        }
    }

    pub fn check_vendor(mode: u8, call: CheckVendor, fault: &mut [u32]) -> u8 {
        unsafe {
            tsorvenk_check_vendor(
                mode, call.n, call.d, call.members, call.reference,
                call.fwd.as_ptr(), call.fwd.len(), call.bwd.as_ptr(), call.bwd.len(), call.pins.as_ptr(), call.pins.len(),
                call.before.as_ptr(), call.before.len(), call.after.as_ptr(), call.after.len(),
                call.rows.as_mut_ptr(), call.rows.len(), fault.as_mut_ptr(), fault.len(),
            )
        }
    }

    pub fn row_of(number: u8, row: &mut [u8]) -> u8 {
        unsafe { tsorvenk_row_of(number, row.as_mut_ptr(), row.len()) }
    }

    pub fn number_of(row: &[u8], number: &mut [u8]) -> u8 {
        unsafe { tsorvenk_number_of(row.as_ptr(), row.len(), number.as_mut_ptr(), number.len()) }
    }
}
