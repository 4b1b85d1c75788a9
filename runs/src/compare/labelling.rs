//! The labelling's own entry.
use super::{differ, differ_lent, found, report, Found, Line};
use crate::case::Bonds;
use crate::model::Model;
use calls::Port;

/// The port's labelling of a table of bonds against the model's; a refusal leaves every buffer alone.
pub fn labelling(case: &Bonds, port: Option<&mut Box<dyn Port>>, line: &mut Line) -> Option<Found> {
    let (code, lent) = case.run(&mut Model);
    let mut text = String::new();
    if code != 0 {
        differ_lent(&mut text, &case.lent, &lent);
    }
    if let Some(port) = port {
        let (port_code, port_lent) = case.run(port.as_mut());
        differ(&mut text, "code", code, port_code);
        differ_lent(&mut text, &lent, &port_lent);
    }
    if !text.is_empty() {
        text = report("labelling", case, &text);
    }
    found(text, case.fwd.len(), line)
}

/// The same of a damaged one.
pub fn damaged_labelling(
    case: &Bonds,
    port: Option<&mut Box<dyn Port>>,
    line: &mut Line,
) -> Option<Found> {
    line.damaged += 1;
    line.refused[usize::from(case.run(&mut Model).0)] += 1;
    labelling(case, port, line)
}
