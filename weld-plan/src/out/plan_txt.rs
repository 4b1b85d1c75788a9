//! The plan as a text for the yard's planner.
use super::{millimetres, Plan};
use crate::day::Day;
use crate::pins::letter;
use std::fmt::Write;

fn head(day: &Day, plan: &Plan) -> String {
    let (panel, total) = (&day.panel, plan.total);
    let pinned = panel.pins.iter().filter(|&&pin| pin == 1).count();
    format!(
        "weld plan
panel: {} seams in each of {} rows, {} in all, counted from 1 row by row
list: sha256 {}
total distortion: {total} hundredths of a millimetre ({} mm)
no plan could be below: {} ({} mm), which is every pair relieved at once
welded from face A: {}
welded from face B: {}
welded already: {pinned}

A pair of neighbours whose number in the list is J adds -J to the total if both are welded from the same face, and J if not.
",
        panel.grid.width,
        panel.grid.height,
        panel.n,
        panel.checksum,
        millimetres(total),
        plan.bound,
        millimetres(plan.bound),
        plan.from_face(1),
        plan.from_face(-1),
    )
}

/// The text: what it is a plan of, the pairs that add most, and each seam with its face.
pub fn spell(day: &Day, plan: &Plan) -> String {
    let mut text = head(day, plan);
    // writing to a string does not fail
    let _ = writeln!(text, "\nthe pairs that add most, in hundredths of a millimetre\nseam seam adds");
    for &(a, b, adds) in &plan.worst {
        let _ = writeln!(text, "{} {} {adds}", a + 1, b + 1);
    }
    let _ = writeln!(text, "\nseam row column face");
    for (site, &spin) in plan.spins.iter().enumerate() {
        let (row, column) = day.panel.grid.place(site);
        let pinned = if day.panel.pins[site] == 1 { " welded already" } else { "" };
        let _ = writeln!(text, "{} {} {} {}{pinned}", site + 1, row + 1, column + 1, letter(spin));
    }
    text
}
