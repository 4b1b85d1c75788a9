//! What leaves at five. All of it is worked out of the day's state, and no clock is in it: the same list, flags and seed give the same
//! bytes.
mod day_json;
mod day_svg;
mod plan_svg;
mod plan_txt;
mod svg;

use crate::day::Day;
use crate::fault::Fault;
use crate::files;
use crate::series::Point;
use std::path::Path;

/// The best plan and what is told of it.
pub struct Plan {
    pub spins: Vec<i8>,
    pub total: i64,
    /// The total if every pair could be relieved at once: minus the sum of all sizes. No plan is below it.
    pub bound: i64,
    /// The pairs that add most, the largest first: both sites and what they add, in hundredths of a millimetre.
    pub worst: Vec<(usize, usize, i32)>,
}

/// How many of the worst pairs are told.
const WORST: usize = 12;

/// Hundredths of a millimetre in millimetres, exactly.
pub fn millimetres(hundredths: i64) -> String {
    let size = hundredths.unsigned_abs();
    format!("{}{}.{:02}", if hundredths < 0 { "-" } else { "" }, size / 100, size % 100)
}

impl Plan {
    /// The plan of a day so far.
    pub fn of(day: &Day) -> Plan {
        let spins = day.plan();
        let mut worst = day.panel.pairs(&spins);
        let bound = -worst.iter().map(|pair| i64::from(pair.2.abs())).sum::<i64>();
        worst.retain(|pair| pair.2 > 0);
        // a sort that keeps the order of equal ones: they stay in the order of their bonds
        worst.sort_by_key(|pair| -pair.2);
        worst.truncate(WORST);
        Plan { spins, total: day.state.best.total, bound, worst }
    }

    /// How many seams are welded from the face of this sign.
    pub fn from_face(&self, face: i8) -> usize {
        self.spins.iter().filter(|&&spin| spin == face).count()
    }
}

/// The course of a day, with its last sweep.
fn course(day: &Day) -> Vec<Point> {
    let mut points = day.state.series.points.clone();
    if points.last().is_none_or(|last| last.sweep < day.state.sweep) {
        points.push(day.state.point(day.config.replicas));
    }
    points
}

/// The four files, by their names.
pub fn files(day: &Day) -> [(&'static str, String); 4] {
    let plan = Plan::of(day);
    [
        ("plan.txt", plan_txt::spell(day, &plan)),
        ("plan.svg", plan_svg::draw(day, &plan)),
        ("day.svg", day_svg::draw(day, &course(day))),
        ("day.json", day_json::spell(day, &plan, &course(day))),
    ]
}

/// All four, or none.
pub fn write(folder: &Path, day: &Day) -> Result<(), Fault> {
    let files = files(day);
    let bytes: Vec<(&str, &[u8])> = files.iter().map(|(name, text)| (*name, text.as_bytes())).collect();
    files::write_all(folder, &bytes)
}
