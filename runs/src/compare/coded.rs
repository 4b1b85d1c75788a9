//! Calls by rows made again by numbers (8/14): the Rust knows no numbers, so they are held to what the call by rows gave.
use super::{differ, differ_lent, report, Line};
use crate::case::{Lent, Panel, Single, Swept};
use crate::model::{owner_refusal, Model};
use calls::{Answer, Coding, Port, SweepAnswer};
use std::fmt::Debug;

const WHAT: &str = "rows against numbers";

/// Whether the call takes permutations, and by rows.
pub fn takes_rows(panel: &Panel) -> bool {
    panel.coding == Coding::Rows && Coding::Numbers.numbers(panel.mode, panel.form)
}

/// What model and port answer and leave, beside what is expected.
pub fn hold<C: Debug, A: PartialEq + Debug>(
    what: &str,
    case: &C,
    expected: (A, &Lent),
    port: Option<&mut Box<dyn Port>>,
    run: impl Fn(&C, &mut dyn Port) -> (A, Lent),
) -> String {
    let side = |side: &mut dyn Port| {
        let (answer, lent) = run(case, side);
        let mut text = String::new();
        differ(&mut text, "answer", &expected.0, &answer);
        differ_lent(&mut text, expected.1, &lent);
        match text.is_empty() {
            true => text,
            false => report(&format!("{}, {what}", side.name()), case, &text),
        }
    };
    side(&mut Model) + &port.map_or(String::new(), |port| side(port.as_mut()))
}

impl Line {
    /// Counts a call by numbers, which a group of another size has refused.
    fn count_coded(&mut self, members: usize) {
        match members {
            5 => self.by_number += 1,
            _ => self.not_of_five += 1,
        }
    }
}

/// A group by numbers that is not of five is 1, before which come the owners alone.
fn not_of_five(panel: &Panel) -> u8 {
    owner_refusal(panel).unwrap_or(1)
}

/// The same move by numbers: what the rows gave, or a refusal where the group is not of five.
pub fn single(
    case: &Single,
    by_rows: (Answer, &Lent),
    port: Option<&mut Box<dyn Port>>,
    line: &mut Line,
) -> String {
    if !takes_rows(&case.panel) {
        return String::new();
    }
    line.count_coded(case.group.len());
    let expected = match case.group.len() {
        5 => by_rows,
        _ => (Answer::Refused(not_of_five(&case.panel)), &case.lent),
    };
    hold(WHAT, &case.by_number(), expected, port, Single::run)
}

/// The same of a sweep, masked tasks or not.
pub fn swept(
    case: &Swept,
    by_rows: (SweepAnswer, &Lent),
    port: Option<&mut Box<dyn Port>>,
    line: &mut Line,
) -> String {
    if !takes_rows(&case.panel) {
        return String::new();
    }
    line.count_coded(case.members);
    let expected = match case.members {
        5 => by_rows,
        _ => (SweepAnswer::Refused(not_of_five(&case.panel)), &case.lent),
    };
    hold(WHAT, &case.by_number(), expected, port, Swept::run)
}
