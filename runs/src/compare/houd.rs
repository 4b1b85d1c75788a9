//! Houd (10/14): with two replicas it is pair with two, call for call, and moves of more are refused.
use super::coded::hold;
use super::{damaged_single, damaged_sweep, Found, Line};
use crate::case::{Lent, Single, Swept};
use crate::model::Model;
use calls::{Answer, Mode, Port, SweepAnswer};

const WHAT: &str = "houd against pair";

/// The same call of two by pair, refused or not: the same answer and the same content of every buffer.
pub fn single(
    case: &Single,
    by_houd: (Answer, &Lent),
    port: Option<&mut Box<dyn Port>>,
    line: &mut Line,
) -> String {
    if case.panel.mode != Mode::Houd || case.group.len() != 2 {
        return String::new();
    }
    line.as_pair += 1;
    let mut pair = case.clone();
    pair.panel.mode = Mode::Pair;
    hold(WHAT, &pair, by_houd, port, Single::run)
}

/// The same of a sweep in groups of two.
pub fn swept(
    case: &Swept,
    by_houd: (SweepAnswer, &Lent),
    port: Option<&mut Box<dyn Port>>,
    line: &mut Line,
) -> String {
    if case.panel.mode != Mode::Houd || case.members != 2 {
        return String::new();
    }
    line.as_pair += 1;
    let mut pair = case.clone();
    pair.panel.mode = Mode::Pair;
    hold(WHAT, &pair, by_houd, port, Swept::run)
}

/// A move of more than two, good but for that: 15, and every buffer as it was. The Rust, which makes it, is left out.
pub fn single_of_more(
    case: &Single,
    port: Option<&mut Box<dyn Port>>,
    line: &mut Line,
) -> Option<Found> {
    assert_eq!(case.run(&mut Model).0, Answer::Refused(15), "{case:?}");
    line.houd_of_more += 1;
    damaged_single(case, port, line)
}

/// The same of a sweep, refused whole.
pub fn swept_of_more(
    case: &Swept,
    port: Option<&mut Box<dyn Port>>,
    line: &mut Line,
) -> Option<Found> {
    assert_eq!(case.run(&mut Model).0, SweepAnswer::Refused(15), "{case:?}");
    line.houd_of_more += 1;
    damaged_sweep(case, port, line)
}
