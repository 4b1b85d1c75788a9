//! What is counted, and a difference.

/// How much was compared for one mode and form.
#[derive(Default)]
pub struct Line {
    pub all_small: usize,
    pub singles: usize,
    pub sweeps: usize,
    pub union_find: usize,
    pub depth_first: usize,
    /// Calls that grow, held to Wolff's.
    pub wolff: usize,
    pub acting: usize,
    pub odd: usize,
    pub idle: usize,
    /// Calls with pins, those of them that the Rust is held to without pins, and held tasks.
    pub pinned: usize,
    pub released: usize,
    pub held: usize,
    pub port: usize,
    pub damaged: usize,
    /// Damaged calls by the model's refusal number; entry 0 those that are accepted all the same.
    pub refused: [usize; 16],
    /// Calls by rows of five that are made again by numbers, and calls by numbers whose group is not of five.
    pub by_number: usize,
    pub not_of_five: usize,
    /// Calls of two by houd that are made again by pair, and moves of more than two by houd, which are refused.
    pub as_pair: usize,
    pub houd_of_more: usize,
    /// Moves that are made again on their group's bytes, damaged ones too; moves on bytes with faults of their own, which are damaged calls.
    pub packed: usize,
    pub packed_damaged: usize,
    /// What the model answers where rows or columns with faults are packed or unpacked, by number.
    pub layouts: [usize; 4],
    /// Calls on a panel of two teams, each held to the call where its team has the panel for itself.
    pub shared: usize,
    /// What the model answers to a vendor's pair: accepted, refused by number, and last not accepted; of the last those where a later component than
    /// the first is at fault.
    pub vendor: [usize; 11],
    pub vendor_behind: usize,
    /// Sweeps by their tasks' steps, and their tasks; steps beside the model's; and what the model answers where the test of a sweep, label, choose and
    /// write have faults, by number.
    pub step_sweeps: usize,
    pub step_tasks: usize,
    pub steps: usize,
    pub step_refused: [[usize; 16]; 4],
    /// Calls that keep totals.
    pub kept: usize,
    /// What the model answers to a hand-over of the panel, good or damaged, by number.
    pub handed: [usize; 15],
    pub differences: usize,
}

/// A difference, with a measure of its case's size.
pub struct Found {
    pub weight: usize,
    pub text: String,
}

/// Keeps the smallest.
pub fn keep(smallest: &mut Option<Found>, found: Found) {
    if smallest.as_ref().is_none_or(|s| found.weight < s.weight) {
        *smallest = Some(found);
    }
}
