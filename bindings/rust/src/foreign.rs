//! The functions of include/tsorvenk.h.
#[rustfmt::skip]
extern "C" {
    pub fn tsorvenk_step(
        mode: u8, form: u8, coding: u8, keeps: u8, n: usize, d: usize, s: usize,
        team: u8, owners: *const u8, owners_len: usize,
        spins: *mut i8, spins_len: usize, totals: *mut i64, totals_len: usize,
        fwd: *const u32, fwd_len: usize, bwd: *const u32, bwd_len: usize, pins: *const u8, pins_len: usize,
        couplings: *const i32, couplings_len: usize, group: *const u32, group_len: usize,
        temperature: f32, cuts: *const f32, cuts_len: usize, reference: usize, seed: usize,
        flips: *const u8, flips_len: usize, perms: *const u8, perms_len: usize, greys: *const u8, greys_len: usize,
        labels: *mut u32, labels_len: usize, grey_labels: *mut u32, grey_labels_len: usize,
        counts: *mut u32, counts_len: usize, sizes: *mut u32, sizes_len: usize,
        member_sites: *mut u8, member_sites_len: usize,
        found: *mut u32, found_len: usize, grey_found: *mut u32, grey_found_len: usize,
    ) -> u8;
    pub fn tsorvenk_sweep(
        mode: u8, form: u8, coding: u8, keeps: u8, n: usize, d: usize, s: usize,
        team: u8, t: usize, r: usize, members: usize, owners: *const u8, owners_len: usize,
        spins: *mut i8, spins_len: usize, totals: *mut i64, totals_len: usize,
        fwd: *const u32, fwd_len: usize, bwd: *const u32, bwd_len: usize, pins: *const u8, pins_len: usize,
        couplings: *const i32, couplings_len: usize, order: *const u32, order_len: usize,
        masks: *const u8, masks_len: usize, temperatures: *const f32, temperatures_len: usize,
        cuts: *const f32, cuts_len: usize, references: *const u32, references_len: usize,
        seeds: *const u32, seeds_len: usize,
        flips: *const u8, flips_len: usize, perms: *const u8, perms_len: usize, greys: *const u8, greys_len: usize,
        labels: *mut u32, labels_len: usize, grey_labels: *mut u32, grey_labels_len: usize,
        counts: *mut u32, counts_len: usize, sizes: *mut u32, sizes_len: usize,
        member_sites: *mut u8, member_sites_len: usize,
        found: *mut u32, found_len: usize, grey_found: *mut u32, grey_found_len: usize,
        outcomes: *mut u32, outcomes_len: usize,
    ) -> u8;
    pub fn tsorvenk_test_sweep(
        mode: u8, form: u8, keeps: u8, n: usize, d: usize, s: usize,
        team: u8, t: usize, r: usize, members: usize, owners: *const u8, owners_len: usize,
        spins: *const i8, spins_len: usize, totals: *const i64, totals_len: usize,
        fwd: *const u32, fwd_len: usize, bwd: *const u32, bwd_len: usize, pins: *const u8, pins_len: usize,
        couplings: *const i32, couplings_len: usize, order: *const u32, order_len: usize,
        masks: *const u8, masks_len: usize, temperatures: *const f32, temperatures_len: usize,
        cuts: *const f32, cuts_len: usize, references: *const u32, references_len: usize,
        seeds: *const u32, seeds_len: usize,
        flips: *const u8, flips_len: usize, perms: *const u8, perms_len: usize, greys: *const u8, greys_len: usize,
        labels: *const u32, labels_len: usize, grey_labels: *const u32, grey_labels_len: usize,
        counts: *const u32, counts_len: usize, sizes: *const u32, sizes_len: usize,
        member_sites: *const u8, member_sites_len: usize,
        found: *const u32, found_len: usize, grey_found: *const u32, grey_found_len: usize,
    ) -> u8;
    pub fn tsorvenk_task_label(
        mode: u8, form: u8, n: usize, d: usize, members: usize, rows: *const i8, rows_len: usize,
        fwd: *const u32, fwd_len: usize, bwd: *const u32, bwd_len: usize, pins: *const u8, pins_len: usize,
        couplings: *const i32, couplings_len: usize,
        temperature: f32, cuts: *const f32, cuts_len: usize, reference: usize, seed: usize,
        flips: *const u8, flips_len: usize, perms: *const u8, perms_len: usize, greys: *const u8, greys_len: usize,
        labels: *mut u32, labels_len: usize, grey_labels: *mut u32, grey_labels_len: usize,
        counts: *mut u32, counts_len: usize, sizes: *mut u32, sizes_len: usize,
        member_sites: *mut u8, member_sites_len: usize,
        found: *mut u32, found_len: usize, grey_found: *mut u32, grey_found_len: usize,
        blue: *mut u8, blue_len: usize,
    ) -> u8;
    pub fn tsorvenk_task_choose(
        mode: u8, form: u8, n: usize, d: usize, members: usize, rows: *const i8, rows_len: usize,
        pins: *const u8, pins_len: usize, reference: usize, seed: usize,
        flips: *const u8, flips_len: usize, perms: *const u8, perms_len: usize, greys: *const u8, greys_len: usize,
        labels: *const u32, labels_len: usize, grey_labels: *const u32, grey_labels_len: usize,
        member_sites: *const u8, member_sites_len: usize, blue: *const u8, blue_len: usize,
        area: *mut u8, area_len: usize,
    ) -> u8;
    pub fn tsorvenk_task_write(
        mode: u8, form: u8, keeps: u8, n: usize, d: usize, members: usize,
        rows: *mut i8, rows_len: usize, totals: *mut i64, totals_len: usize,
        fwd: *const u32, fwd_len: usize, bwd: *const u32, bwd_len: usize, couplings: *const i32, couplings_len: usize,
        member_sites: *const u8, member_sites_len: usize, area: *const u8, area_len: usize,
    ) -> u8;
    pub fn tsorvenk_pack(
        n: usize, members: usize, rows: *const i8, rows_len: usize, columns: *mut u8, columns_len: usize,
    ) -> u8;
    pub fn tsorvenk_unpack(
        n: usize, members: usize, columns: *const u8, columns_len: usize, rows: *mut i8, rows_len: usize,
    ) -> u8;
    pub fn tsorvenk_packed_step(
        mode: u8, form: u8, coding: u8, keeps: u8, n: usize, d: usize, members: usize,
        columns: *mut u8, columns_len: usize, totals: *mut i64, totals_len: usize,
        fwd: *const u32, fwd_len: usize, bwd: *const u32, bwd_len: usize, pins: *const u8, pins_len: usize,
        couplings: *const i32, couplings_len: usize,
        temperature: f32, cuts: *const f32, cuts_len: usize, reference: usize, seed: usize,
        flips: *const u8, flips_len: usize, perms: *const u8, perms_len: usize, greys: *const u8, greys_len: usize,
        labels: *mut u32, labels_len: usize, grey_labels: *mut u32, grey_labels_len: usize,
        counts: *mut u32, counts_len: usize, sizes: *mut u32, sizes_len: usize,
        member_sites: *mut u8, member_sites_len: usize,
        found: *mut u32, found_len: usize, grey_found: *mut u32, grey_found_len: usize,
    ) -> u8;
    pub fn tsorvenk_check_vendor(
        mode: u8, n: usize, d: usize, members: usize, reference: usize,
        fwd: *const u32, fwd_len: usize, bwd: *const u32, bwd_len: usize, pins: *const u8, pins_len: usize,
        before: *const i8, before_len: usize, after: *const i8, after_len: usize,
        rows: *mut u8, rows_len: usize, fault: *mut u32, fault_len: usize,
    ) -> u8;
    pub fn tsorvenk_energy(
        n: usize, d: usize, s: usize, team: u8, owners: *const u8, owners_len: usize,
        spins: *const i8, spins_len: usize, fwd: *const u32, fwd_len: usize, bwd: *const u32, bwd_len: usize,
        couplings: *const i32, couplings_len: usize, system: usize, energy: *mut i64, energy_len: usize,
    ) -> u8;
    pub fn tsorvenk_hand_over(
        n: usize, d: usize, s: usize, team: u8, owners: *const u8, owners_len: usize,
        spins: *const i8, spins_len: usize, totals: *const i64, totals_len: usize,
        fwd: *const u32, fwd_len: usize, bwd: *const u32, bwd_len: usize, couplings: *const i32, couplings_len: usize,
    ) -> u8;
    pub fn tsorvenk_row_of(number: u8, row: *mut u8, row_len: usize) -> u8;
    pub fn tsorvenk_number_of(row: *const u8, row_len: usize, number: *mut u8, number_len: usize) -> u8;
    pub fn tsorvenk_label(
        n: usize, d: usize, fwd: *const u32, fwd_len: usize, holds: *const u8, holds_len: usize,
        counted: *const u8, counted_len: usize,
        labels: *mut u32, labels_len: usize, counts: *mut u32, counts_len: usize, sizes: *mut u32, sizes_len: usize,
        found: *mut u32, found_len: usize,
    ) -> u8;
    pub fn tsorvenk_frames(
        text: *const u8, text_len: usize, out: *mut u8, out_len: usize, written: *mut usize, written_len: usize,
    ) -> u8;
    pub fn tsorvenk_word(
        source: *mut u64, source_len: usize, word: *mut u64, word_len: usize,
    ) -> u8;
    pub fn tsorvenk_coin(
        source: *mut u64, source_len: usize, coin: *mut u8, coin_len: usize,
    ) -> u8;
    pub fn tsorvenk_below(
        m: u32, source: *mut u64, source_len: usize, number: *mut u32, number_len: usize,
    ) -> u8;
    pub fn tsorvenk_permutation(
        members: usize, source: *mut u64, source_len: usize, row: *mut u8, row_len: usize,
    ) -> u8;
    pub fn tsorvenk_fill_flips(
        source: *mut u64, source_len: usize, flips: *mut u8, flips_len: usize,
    ) -> u8;
    pub fn tsorvenk_fill_below(
        m: u32, source: *mut u64, source_len: usize, numbers: *mut u32, numbers_len: usize,
    ) -> u8;
    pub fn tsorvenk_fill_bytes_below(
        m: u32, source: *mut u64, source_len: usize, bytes: *mut u8, bytes_len: usize,
    ) -> u8;
    pub fn tsorvenk_fill_permutations(
        members: usize, source: *mut u64, source_len: usize, rows: *mut u8, rows_len: usize,
    ) -> u8;
    pub fn tsorvenk_wolff_permutation(
        members: usize, source: *mut u64, source_len: usize, rows: *mut u8, rows_len: usize,
    ) -> u8;
    pub fn tsorvenk_wolff_grey(
        source: *mut u64, source_len: usize, greys: *mut u8, greys_len: usize,
    ) -> u8;
    pub fn tsorvenk_fill_numbers(
        source: *mut u64, source_len: usize, perms: *mut u8, perms_len: usize,
    ) -> u8;
    pub fn tsorvenk_wolff_numbers(
        source: *mut u64, source_len: usize, perms: *mut u8, perms_len: usize,
    ) -> u8;
    pub fn tsorvenk_read_edges(
        n: usize, d: usize, fwd: *const u32, fwd_len: usize, bwd: *const u32, bwd_len: usize,
        text: *const u8, text_len: usize, couplings: *mut i32, couplings_len: usize,
    ) -> u8;
    pub fn tsorvenk_write_edges(
        n: usize, d: usize, fwd: *const u32, fwd_len: usize, bwd: *const u32, bwd_len: usize,
        couplings: *const i32, couplings_len: usize, text: *mut u8, text_len: usize,
        written: *mut usize, written_len: usize,
    ) -> u8;
}
