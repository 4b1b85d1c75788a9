//! The day for the analyst: everything that the pictures are drawn from, in whole numbers.
use super::Plan;
use crate::day::Day;
use crate::pins::letter;
use crate::series::Point;
use crate::state::Rate;

fn list<T: ToString>(numbers: impl IntoIterator<Item = T>) -> String {
    format!("[{}]", numbers.into_iter().map(|number| number.to_string()).collect::<Vec<_>>().join(", "))
}

fn rates(rates: &[Rate]) -> String {
    format!("{{\"tried\": {}, \"accepted\": {}}}", list(rates.iter().map(|rate| rate.tried)), list(rates.iter().map(|rate| rate.done)))
}

/// What each of the library's moves did.
fn moves(day: &Day) -> String {
    let one = |(one, tally): (&crate::modes::Use, &crate::state::Tally)| {
        format!(
            "\n    {{\"move\": \"{one}\", \"moved\": {}, \"idle\": {}, \"held\": {}, \"clusters\": {}, \"sites\": {}, \"largest\": {}}}",
            tally.moved, tally.idle, tally.held, tally.clusters, tally.sites, tally.largest
        )
    };
    format!("[{}]", day.config.modes.iter().zip(&day.state.tallies).map(one).collect::<Vec<_>>().join(","))
}

/// For each temperature the sums of its replicas' totals, a number for each point.
fn sums(points: &[Point], temperatures: usize) -> String {
    let row = |j: usize| format!("\n      {}", list(points.iter().map(|point| point.sums[j])));
    format!("[{}]", (0..temperatures).map(row).collect::<Vec<_>>().join(","))
}

/// Names and values, in an order that stays.
pub fn spell(day: &Day, plan: &Plan, points: &[Point]) -> String {
    let (panel, config, state) = (&day.panel, &day.config, &day.state);
    let text = |word: &str| format!("\"{word}\"");
    let faces: String = plan.spins.iter().map(|&spin| letter(spin)).collect();
    let pinned = (0..panel.n).filter(|&site| panel.pins[site] == 1).map(|site| site + 1);
    let worst = plan.worst.iter().map(|&(a, b, adds)| list([a as i64 + 1, b as i64 + 1, adds.into()]));
    let course = format!(
        "{{\n    \"sweep\": {},\n    \"best\": {},\n    \"sums\": {}\n  }}",
        list(points.iter().map(|point| point.sweep)),
        list(points.iter().map(|point| point.best)),
        sums(points, config.temperatures.len())
    );
    let fields = [
        ("format", text("weld-plan day 1")),
        ("unit", text("hundredths of a millimetre")),
        ("width", panel.grid.width.to_string()),
        ("height", panel.grid.height.to_string()),
        ("list_sha256", text(&panel.checksum)),
        ("pinned", list(pinned)),
        // words are strings: JSON's numbers lose bits above 2^53 in many readers
        ("seed", list(config.seed.iter().map(|word| format!("\"{word}\"")))),
        ("temperatures", list(&config.temperatures)),
        ("replicas", config.replicas.to_string()),
        ("sweeps", state.sweep.to_string()),
        ("best", format!("{{\"total\": {}, \"sweep\": {}, \"faces\": \"{faces}\"}}", plan.total, state.best.sweep)),
        ("bound", plan.bound.to_string()),
        ("worst", list(worst)),
        ("totals", list(state.order.iter().map(|&system| state.totals[system as usize]))),
        ("updates", rates(&state.updates)),
        ("exchanges", rates(&state.exchanges)),
        ("moves", moves(day)),
        ("course", course),
    ];
    let lines: Vec<String> = fields.iter().map(|(name, value)| format!("  \"{name}\": {value}")).collect();
    format!("{{\n{}\n}}\n", lines.join(",\n"))
}
