//! What comes back.
use std::error::Error;
use std::fmt;

/// What became of a step that is not refused. What its form writes beside the spins is written in every case.
#[derive(Clone, Copy, Debug, PartialEq, Eq, Hash)]
pub enum Stepped {
    /// Some site acts (in CMR every site does), even if every choice was to leave the spins as they are. An observation
    /// answers so too, and moves nothing.
    Moved,
    /// No site acts: the spins are as they were.
    Idle,
    /// Some site acts, but the component of the seed (in CMR its blue one) has a pinned site: spins and totals are as they were.
    /// Wolff and grow alone answer so; SW and an observation never do.
    Held,
}

/// What a check of a vendor's moves that is not refused says.
#[derive(Clone, Copy, Debug, PartialEq, Eq, Hash)]
pub enum Checked {
    /// The spins after are those of a move: the permutations are written.
    Accepted,
    /// They are not, and nothing is written: the smallest number of a component at fault.
    Fault(u32),
}

/// The counts of a sweep that is not refused, over the tasks of unmasked temperatures.
#[derive(Clone, Copy, Debug, PartialEq, Eq, Hash)]
#[non_exhaustive]
pub struct Swept {
    /// How many tasks were idle: no site acts.
    pub idle: u32,
    /// How many moved, which are all others, even if every choice was to leave the spins as they are.
    pub moved: u32,
    /// How many were held by a pin: 0 in SW and where nothing is pinned.
    pub held: u32,
}

/// Why a call is refused. Every buffer that it was lent is as it was.
///
/// Of a call with owners their length, 2, and then a byte of them or a team above 1, 3, are tested before all else. Then the
/// numbers are tested in their order, but for 15 of houd straight after 1, each only on what the mode and form take: the call
/// is refused with the first that fits. A row that is refused with 3, or a total with 14, is that of a system which the call names.
/// A draw tests 12 before the length of what it fills, 2; an edge list is tested for 13 between 4 and 6, and its writer last of
/// all for 2, room in `text`; 14 is the last test of a call that keeps totals and of a hand-over.
/// [`refusal_words`] has words for each, which `Display` writes behind the number.
#[derive(Clone, Copy, Debug, PartialEq, Eq, Hash)]
pub struct Refusal {
    /// 1 to 10, 12 of a draw, 13 of an edge list, 14 of totals, or 15 of houd with more than two.
    pub number: u8,
}

impl Refusal {
    /// What the number says is wrong.
    pub fn words(self) -> &'static str {
        refusal_words(self.number)
    }
}

impl fmt::Display for Refusal {
    fn fmt(&self, f: &mut fmt::Formatter<'_>) -> fmt::Result {
        write!(f, "refused with {}: {}", self.number, self.words())
    }
}

impl Error for Refusal {}

/// `out` of [`Frames`](crate::Frames) is too short for the answer, and nothing is written.
#[derive(Clone, Copy, Debug, PartialEq, Eq, Hash)]
pub struct NoRoom;

impl fmt::Display for NoRoom {
    fn fmt(&self, f: &mut fmt::Formatter<'_>) -> fmt::Result {
        f.write_str(refusal_words(65))
    }
}

impl Error for NoRoom {}

/// Words for each number of the C interface, whose `tsorvenk_refusal_words` has the same: the refusals 1 to 10 and 12 to 15,
/// 11 of a text of frames, and 0 and 64 to 67, which are none.
pub fn refusal_words(number: u8) -> &'static str {
    match number {
        0 => "not refused",
        1 => "a size, a group's size, the mode, the form, the coding or what is kept is out of its range",
        2 => "a buffer's length is not the exact one",
        3 => "a spin of a named system or a vendor's is not +1 or -1, a packed byte has a bit from N upwards, or an owner byte or the team is above 1",
        4 => "a neighbour is n or more, the forward and backward tables are not inverse, or a pin byte is not 0 or 1",
        5 => "a system is s or more, the other team's or stands twice",
        6 => "a coupling's size is above 1,000,000",
        7 => "a temperature is not from 1/1024 to 1,048,576",
        8 => "a cut is below 0, infinite or not a number",
        9 => "a permutation or its number, flip, grey number, reference site, mask byte, byte of holds or counted, or what a task's first step found is out of its set",
        10 => "a seed is n or more, or does not act although some site does",
        11 => "a frame is missing, misplaced, misspelt or of the wrong length, or there is one too many",
        12 => "a source of draws is all 0, m or the members are out of range, or 64 words in a row were taken again",
        13 => "a text is no edge list of this lattice: its form, n, m, a site, or a line for which no bond is left",
        14 => "a total is not its system's energy at the hand-over, or is above 16,384,000,000 in size",
        15 => "houd moves groups of two alone; it observes groups of any size",
        64 => "not refused: no site acts",
        65 => "there is no room for the answer",
        66 => "not refused: a pin holds the seed's component",
        67 => "not refused: the vendor's spins are not accepted, a component is at fault",
        _ => "a number that no call gives",
    }
}
