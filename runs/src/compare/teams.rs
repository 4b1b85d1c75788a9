//! Calls on a panel that two teams share (12/14), held to the same calls of a team that has the panel for itself, which are those that the Rust is held to:
//! whatever stands in rows and totals that the call does not name, it answers and writes the same, and leaves them.
use super::coded::hold;
use super::{differ, found, report, Found, Line};
use crate::case::{Lent, Single, Swept};
use crate::model::Model;
use crate::rand::Rand;
use crate::teams::{around_single, around_swept, Shared};
use calls::{Answer, MeterAnswer, Port, SweepAnswer};

const WHAT: &str = "two teams against one";

/// The meter of every third system of the group and of a foreign one, and the hand-over, on one side.
fn meters(case: &Single, shared: &Shared, side: &mut dyn Port) -> String {
    let mut text = String::new();
    let among = shared.single(case);
    for system in case.group.iter().step_by(3).map(|&k| k as usize) {
        let expected = Model.energy(case.meter(system));
        let answer = side.energy(among.meter(shared.places()[system]));
        differ(&mut text, "energy", expected, answer);
    }
    if let Some(foreign) = shared.foreign() {
        // couplings that the move does not take may have any length
        let refused = match Model.energy(case.meter(0)) {
            MeterAnswer::Refused(2) => 2,
            _ => 5,
        };
        let answer = side.energy(among.meter(foreign));
        differ(&mut text, "foreign", MeterAnswer::Refused(refused), answer);
    }
    if shared.whole() && case.panel.keeping() {
        let expected = Model.hand_over(case.panel.hand_over(&case.lent));
        let answer = side.hand_over(among.panel.hand_over(&among.lent));
        differ(&mut text, "hand-over", expected, answer);
    }
    match text.is_empty() {
        true => text,
        false => report(&format!("{}, {WHAT}", side.name()), &among, &text),
    }
}

/// A good move, twice with the same owners and other rubbish.
pub fn shared_single(
    case: &Single,
    rand: &mut Rand,
    mut port: Option<&mut Box<dyn Port>>,
    line: &mut Line,
) -> Option<Found> {
    let (answer, lent): (Answer, Lent) = case.run(&mut Model);
    let mut shared = around_single(rand, case);
    let mut text = String::new();
    for _ in 0..2 {
        line.shared += 1;
        let (among, expected) = (shared.single(case), shared.lent(&lent));
        let by_one = (answer, &expected);
        text += &hold(WHAT, &among, by_one, port.as_deref_mut(), Single::run);
        text += &meters(case, &shared, &mut Model);
        if let Some(port) = port.as_deref_mut() {
            text += &meters(case, &shared, port.as_mut());
        }
        shared = shared.again(rand);
    }
    found(text, case.lent.spins.len() + case.panel.fwd.len(), line)
}

/// The same of a sweep.
pub fn shared_swept(
    case: &Swept,
    rand: &mut Rand,
    mut port: Option<&mut Box<dyn Port>>,
    line: &mut Line,
) -> Option<Found> {
    let (answer, lent): (SweepAnswer, Lent) = case.run(&mut Model);
    let mut shared = around_swept(rand, case);
    let mut text = String::new();
    for _ in 0..2 {
        line.shared += 1;
        let (among, expected) = (shared.swept(case), shared.lent(&lent));
        let by_one = (answer, &expected);
        text += &hold(WHAT, &among, by_one, port.as_deref_mut(), Swept::run);
        shared = shared.again(rand);
    }
    found(text, case.lent.spins.len() + case.panel.fwd.len(), line)
}
