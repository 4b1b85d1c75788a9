//! How many sweeps and seconds a day takes to its best plan, with and without the library's moves: docs/DAY.md has what it printed.
//!
//!     cargo run --release --example measure WxH PANELS MOST MODES..
//!
//! For each panel, of sizes 1 to 40 and coins for signs, a long day with pair and CMR sweeps says what is taken for the best. Then
//! a day of each of the MODES, from another seed, runs until it has that, or MOST sweeps.
use std::time::Instant;
use weld_plan::config::Config;
use weld_plan::day::Day;
use weld_plan::fault::Fault;
use weld_plan::grid::Grid;
use weld_plan::panel::Panel;
use weld_plan::state::State;
use weld_plan::{modes, sample, temperatures};

/// A day on panel number k, which `make_list` makes from the seed k, 2, 3, 4.
fn day(grid: Grid, k: u64, moves: &str, seed: [u64; 4]) -> Result<Day, Fault> {
    let list = sample::list(grid, [k, 2, 3, 4], 40)?;
    let panel = Panel::from_list(list.as_bytes(), grid).map_err(Fault::input)?;
    let temperatures = temperatures::parse("16", &panel.couplings)?;
    let config = Config { seed, temperatures, replicas: 4, modes: modes::parse(moves, 4)? };
    let state = State::new(&panel, &config)?;
    Ok(Day::new(panel, config, state))
}

fn main() -> Result<(), Fault> {
    let arguments: Vec<String> = std::env::args().skip(1).collect();
    let grid = Grid::parse(&arguments[0])?;
    let (panels, most): (u64, u64) = (arguments[1].parse().expect("a number"), arguments[2].parse().expect("a number"));
    for k in 1..=panels {
        let mut long = day(grid, k, "pair,cmr", [k, 7, 7, 7])?;
        (0..2500).try_for_each(|_| long.sweep())?;
        let best = &long.state.best;
        println!("{grid} panel {k}: best {} (long day, sweep {})", best.total, best.sweep);
        for moves in &arguments[3..] {
            let mut day = day(grid, k, moves, [k, 1, 1, 1])?;
            let began = Instant::now();
            while day.state.best.total > best.total && day.state.sweep < most {
                day.sweep()?;
            }
            day.held_to_the_meter()?;
            let (sweep, seconds) = (day.state.sweep, began.elapsed().as_secs_f64());
            println!("{grid} panel {k}: {moves} {} after {sweep} sweeps, {seconds:.2} s", day.state.best.total);
        }
    }
    Ok(())
}
