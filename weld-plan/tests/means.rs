//! Replicas at a temperature are what they should be: on a panel of 3 by 3 the mean total over a long day is that of all 512 plans, each
//! weighed by e to the minus (total / temperature), whatever moves are made. A move in the wrong proportion would shift it.
mod common;
use weld_plan::config::Config;
use weld_plan::day::Day;
use weld_plan::grid::Grid;
use weld_plan::panel::Panel;
use weld_plan::state::State;
use weld_plan::{modes, pins};

const TEMPERATURES: [f32; 4] = [6.0, 12.0, 20.0, 40.0];
const SWEEPS: usize = 20_000;
/// How far a mean may be off at each temperature: five times the root mean square of what the 32 days below were off by when this was
/// written, 0.025, 0.094, 0.105 and 0.123.
const ROOM: [f64; 4] = [0.13, 0.47, 0.53, 0.62];

/// The mean total of all plans that keep the pins.
fn mean_of_all(panel: &Panel, temperature: f64) -> f64 {
    let (mut sum, mut weights) = (0.0, 0.0);
    for pattern in 0..1 << panel.n {
        let spins: Vec<i8> = (0..panel.n).map(|site| if pattern >> site & 1 == 1 { 1 } else { -1 }).collect();
        if (0..panel.n).all(|site| panel.faces[site] * spins[site] >= 0) {
            let total = panel.meter(&spins).unwrap() as f64;
            let weight = (-total / temperature).exp();
            (sum, weights) = (sum + total * weight, weights + weight);
        }
    }
    sum / weights
}

fn means_hold(moves: &str, pinned: &str) {
    let grid = Grid { width: 3, height: 3 };
    let mut panel = Panel::from_list(common::list("3x3", [4, 5, 6, 7], 20).as_bytes(), grid).unwrap();
    pins::pin(&mut panel, pinned).unwrap();
    let expected = TEMPERATURES.map(|temperature| mean_of_all(&panel, temperature.into()));
    let config = Config { seed: [1, 2, 3, 4], temperatures: TEMPERATURES.to_vec(), replicas: 4, modes: modes::parse(moves, 4).unwrap() };
    let state = State::new(&panel, &config).unwrap();
    let mut day = Day::new(panel, config, state);
    let mut sums = [0i64; 4];
    for sweep in 0..SWEEPS + 100 {
        day.sweep().unwrap();
        if sweep >= 100 {
            sums.iter_mut().zip(day.state.point(4).sums).for_each(|(sum, more)| *sum += more);
        }
    }
    for (j, expected) in expected.into_iter().enumerate() {
        let mean = sums[j] as f64 / (4 * SWEEPS) as f64;
        assert!((mean - expected).abs() < ROOM[j], "{moves} {pinned:?} at {}: {mean} in place of {expected}", TEMPERATURES[j]);
    }
}

#[test]
fn single_seams_and_exchange() {
    means_hold("none", "");
    means_hold("none", "1 A\n6 B\n");
}

#[test]
fn all_clusters() {
    for moves in ["houd", "pair", "pair:sw:4", "perm:sw:3", "gperm:sw:4", "jorg", "cmr"] {
        means_hold(moves, "");
        means_hold(moves, "1 A\n6 B\n");
    }
}

#[test]
fn one_cluster() {
    for moves in ["houd:wolff", "pair:grow", "perm:grow:4", "gperm:wolff:3", "jorg:grow", "jorg:wolff", "cmr:grow", "cmr:wolff"] {
        means_hold(moves, "");
        means_hold(moves, "1 A\n6 B\n");
    }
}
