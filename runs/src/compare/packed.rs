//! Moves made again on one byte for a site's whole group (11/14): held to what the rows gave, or, where a fault lies in what a packed call does not
//! have, to the move on the rows that the bytes stand for.
use super::coded::{hold, takes_rows};
use super::{differ, differ_lent, found, report, Found, Line};
use crate::case::{Lent, Packed, Single};
use crate::model::Model;
use crate::packed::Layout;
use calls::{Answer, Port};

const WHAT: &str = "bytes against rows";

/// The same move on bytes, and by numbers too where it takes permutations; and the group's rows packed and unpacked.
pub fn single(
    case: &Single,
    by_rows: (Answer, &Lent),
    mut port: Option<&mut Box<dyn Port>>,
    line: &mut Line,
) -> String {
    let Some(packed) = case.packed() else {
        return String::new();
    };
    line.packed += 1;
    let (answer, lent) = match by_rows {
        (Answer::Refused(_), _) => packed.by_rows(&mut Model),
        (answer, lent) => (answer, case.packed_lent(lent)),
    };
    let mut text = hold(
        WHAT,
        &packed,
        (answer, &lent),
        port.as_deref_mut(),
        Packed::run,
    );
    if takes_rows(&case.panel) {
        let coded = case.by_number().packed().expect("it has the same rows");
        let expected = match case.group.len() {
            5 => (answer, &lent),
            _ => (Answer::Refused(1), &coded.lent),
        };
        text += &hold(WHAT, &coded, expected, port.as_deref_mut(), Packed::run);
    }
    text + &layout(&packed.layout(), port)
}

/// What a side's packing and unpacking give, beside what is expected of them.
fn differ_layout(
    case: &Layout,
    side: &mut dyn Port,
    columns: &(u8, Vec<u8>),
    rows: &(u8, Vec<i8>),
) -> String {
    let mut text = String::new();
    differ(&mut text, "packed", columns, &case.pack(side));
    differ(&mut text, "unpacked", rows, &case.unpack(side));
    match text.is_empty() {
        true => text,
        false => report(&format!("{}, packing", side.name()), case, &text),
    }
}

/// Rows and columns that stand for each other are made of each other, unless a size is refused.
fn layout(case: &Layout, port: Option<&mut Box<dyn Port>>) -> String {
    let sized = (1..=4096).contains(&case.n) && (2..=8).contains(&case.members);
    let (columns, rows) = match sized {
        true => ((0, case.columns.clone()), (0, case.rows.clone())),
        false => (case.pack(&mut Model), case.unpack(&mut Model)),
    };
    let side = |side: &mut dyn Port| differ_layout(case, side, &columns, &rows);
    side(&mut Model) + &port.map_or(String::new(), |port| side(port.as_mut()))
}

/// A move on bytes with faults: it answers as on the rows that they stand for, on every side, and a refusal leaves every buffer alone.
pub fn damaged_packed(
    case: &Packed,
    mut port: Option<&mut Box<dyn Port>>,
    line: &mut Line,
) -> Option<Found> {
    let (answer, lent) = case.by_rows(&mut Model);
    let mut text = String::new();
    line.packed_damaged += 1;
    line.damaged += 1;
    if let Answer::Refused(number) = answer {
        line.refused[usize::from(number)] += 1;
        differ_lent(&mut text, &case.lent, &lent);
    } else {
        line.refused[0] += 1;
    }
    text += &hold(
        WHAT,
        case,
        (answer, &lent),
        port.as_deref_mut(),
        Packed::run,
    );
    if let Some(port) = port {
        let by_rows = case.by_rows(port.as_mut());
        differ(&mut text, "the port's rows", &(answer, lent), &by_rows);
    }
    found(text, case.lent.columns.len() + case.panel.fwd.len(), line)
}

/// Rows and columns with faults, on every side: a refusal leaves what was to be written.
pub fn damaged_layout(
    case: &Layout,
    port: Option<&mut Box<dyn Port>>,
    line: &mut Line,
) -> Option<Found> {
    let (columns, rows) = (case.pack(&mut Model), case.unpack(&mut Model));
    for number in [columns.0, rows.0] {
        line.layouts[usize::from(number)] += 1;
    }
    let untouched = crate::make::UNTOUCHED_BYTE;
    let mut text = String::new();
    if columns.0 != 0 && columns.1.iter().any(|&byte| byte != untouched) {
        text += "  the model writes columns and refuses\n";
    }
    if rows.0 != 0 && rows.1.iter().any(|&spin| spin != untouched as i8) {
        text += "  the model writes rows and refuses\n";
    }
    if let Some(port) = port {
        text += &differ_layout(case, port.as_mut(), &columns, &rows);
    }
    found(text, case.rows.len(), line)
}
