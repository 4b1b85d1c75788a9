//! A vendor's spins before and after (13/14): the port as C and as the crate call it, beside the model, which tries every permutation.
use super::{differ, found, report, Found, Line};
use crate::model::{Model, NO};
use crate::vendor::{Checked, Vendored};
use calls::Port;

/// What an accepted pair has written makes after of before on every side. The fault alone is written where it is not, and nothing where it is refused.
fn differ_written(
    text: &mut String,
    case: &Vendored,
    checked: &Checked,
    port: Option<&mut Box<dyn Port>>,
) {
    if checked.number == 0 {
        let mut play = |what: &str, side: &mut dyn Port| {
            differ(text, what, &case.after, &case.played(side, &checked.rows));
        };
        play("played by the model", &mut Model);
        if let Some(port) = port {
            play("played by the port", port.as_mut());
        }
    } else {
        differ(text, "rows", &case.rows, &checked.rows);
    }
    if checked.number != NO {
        differ(text, "fault", &case.fault, &checked.fault);
    }
}

/// Every side beside the model.
fn held(
    case: &Vendored,
    mut port: Option<&mut Box<dyn Port>>,
    line: &mut Line,
) -> (Checked, String) {
    let checked = case.by_model();
    let mut text = String::new();
    line.vendor[usize::from(checked.number).min(10)] += 1;
    line.vendor_behind += usize::from(checked.number == NO && checked.fault[0] > 0);
    let by_crate = |port: &mut Box<dyn Port>| case.by_side(port.as_mut());
    if let Some(by_crate) = port.as_deref_mut().and_then(by_crate) {
        differ(&mut text, "by the crate", &checked, &by_crate);
    }
    if let Some(as_c) = case.as_c() {
        differ(&mut text, "as C calls it", &checked, &as_c);
    }
    differ_written(&mut text, case, &checked, port);
    (checked, text)
}

fn weigh(what: &str, case: &Vendored, text: String, line: &mut Line) -> Option<Found> {
    let text = match text.is_empty() {
        true => text,
        false => report(&format!("a vendor's pair, {what}"), case, &text),
    };
    found(text, case.before.len() + case.fwd.len(), line)
}

/// What our own move gave: it is accepted.
pub fn own_move(
    case: &Vendored,
    port: Option<&mut Box<dyn Port>>,
    line: &mut Line,
) -> Option<Found> {
    let (checked, mut text) = held(case, port, line);
    differ(&mut text, "number of our own move", 0, checked.number);
    weigh("our own move", case, text, line)
}

/// A pair that may be accepted or not, or that is refused.
pub fn vendored(
    what: &str,
    case: &Vendored,
    port: Option<&mut Box<dyn Port>>,
    line: &mut Line,
) -> Option<Found> {
    let (_, text) = held(case, port, line);
    weigh(what, case, text, line)
}
