//! bench [repetitions] [totals|numbers|pins|packed|teams|vendor|steps|threads]: the port against the published Rust, in one run, as the tables of docs/BENCHMARKS.md.
//!
//! Times are medians in microseconds. "Rust" is the published code with a generator, "lent" the same code with its
//! draws read from the lent choices, "depth" the one-cluster form without outputs, a search from the seed; beside a
//! form that grows "Rust" and "lent" are that search. The port's tests are the time of the same call made to fail its
//! last test; "move" is the rest. The standard output has the tables, and the standard error each case with all that
//! was measured. Where the port is not linked the model stands in for it, so that the run itself can be tried. With the word
//! `totals` behind the repetitions only the tables of totals are made, with `numbers` only those of permutations by number,
//! with `pins` only those of panels with pinned sites, with `packed` only those of one byte for a site's group, with `teams` only
//! those of panels that two teams share, and of moves in a panel of 64 systems, with `vendor` only that of a vendor's moves, with `steps`
//! only those of a task's three steps, and with `threads` only that of a sweep's tasks on two threads.
mod clusters;
mod coded;
mod draws;
mod edges;
mod labelling;
mod moves;
mod packed;
mod parts;
mod pins;
mod steps;
mod tables;
mod teams;
mod totals;
mod vendor;

use calls::{Form, Mode, Port};
use tsorvenk_runs::model::Model;
use tsorvenk_runs::port;
use tsorvenk_runs::rand::Rand;
use tsorvenk_runs::timing::N;

struct Bench {
    port: Box<dyn Port>,
    repetitions: usize,
    rand: Rand,
    ratios: Ratios,
}

fn sizes(mode: Mode, form: Form) -> &'static [usize] {
    match mode.most_members(form) {
        2 => &[2],
        _ => &[2, 4, 8],
    }
}

/// Modes that draw bonds are measured in three directions too.
fn directions(mode: Mode) -> &'static [usize] {
    match mode.draws() {
        true => &[2, 3],
        false => &[2],
    }
}

/// What the cells of a table come to.
#[derive(Default)]
struct Ratios(Vec<f64>);

impl Ratios {
    fn print(&mut self) {
        if !self.0.is_empty() {
            let most = self.0.iter().copied().fold(0.0, f64::max);
            let mean = (self.0.iter().map(|r| r.ln()).sum::<f64>() / self.0.len() as f64).exp();
            println!("\nAt most {most:.2}, {mean:.2} as a geometric mean.");
        }
        self.0.clear();
    }
}

impl Bench {
    /// port / Rust and their ratio, with what follows it.
    fn cell(&mut self, port: f64, rust: Option<f64>, more: impl Fn(f64) -> String) -> String {
        let short = |time: f64| format!("{time:.*}", if time < 10.0 { 2 } else { 0 });
        let Some(rust) = rust else {
            return short(port);
        };
        self.ratios.0.push(port / rust);
        let ratio = port / rust;
        format!(
            "{} / {} = **{ratio:.2}**{}",
            short(port),
            short(rust),
            more(rust)
        )
    }
}

fn head(title: &str, first: &str, columns: &[&str]) {
    println!("\n{title}\n\n| {first} | {} |", columns.join(" | "));
    println!("|---|{}", "---|".repeat(columns.len()));
}

fn row(name: &str, mut cells: Vec<String>, columns: usize) {
    cells.resize(columns, String::new());
    println!("| {name} | {} |", cells.join(" | "));
}

/// A row for each mode, form and number of directions, with a cell for each size of the group. `Grow` has tables of its own.
fn by_size(
    bench: &mut Bench,
    title: &str,
    mut cell: impl FnMut(&mut Bench, Mode, Form, usize, usize) -> String,
) {
    head(title, "Mode and form", &["N = 2", "N = 4", "N = 8"]);
    for mode in Mode::ALL {
        for &d in directions(mode) {
            for form in Form::LABELLED {
                let sizes = sizes(mode, form).iter();
                let cells = sizes.map(|&m| cell(bench, mode, form, d, m));
                let name = format!("{} {}, D = {d}", mode.name(), form.name());
                row(&name, cells.collect(), 3);
            }
        }
    }
    bench.ratios.print();
}

/// The tests of a sweep are those of all that is lent, whatever the clusters are: they are shown apart.
fn grown_sweeps(bench: &mut Bench) {
    let title =
        "Sweeps that grow, t = 8, r = 8: whole call less its tests / the Rust without outputs; \
        the ratio to it with lent draws, which has the same clusters; the tests";
    head(title, "Mode", &["N = 2", "N = 4", "N = 8"]);
    for mode in Mode::ALL {
        for d in [2, 3] {
            let cells = sizes(mode, Form::Grow)
                .iter()
                .map(|&m| bench.grown_sweep_cell(mode, d, m));
            row(&format!("{}, D = {d}", mode.name()), cells.collect(), 3);
        }
    }
    bench.ratios.print();
}

fn small_panels(bench: &mut Bench) {
    let title = "Small panels, N = 2, D = 2: whole call / Rust; the tests' share of the call";
    head(title, "Mode and form", &["n = 16", "n = 64", "n = 256"]);
    for mode in Mode::ALL {
        for form in Form::ALL {
            let cells = [16, 64, 256].map(|n| bench.small_cell(mode, form, n));
            row(&format!("{} {}", mode.name(), form.name()), cells.into(), 3);
        }
    }
    bench.ratios.print();
}

fn main() {
    let words: Vec<String> = std::env::args().skip(1).collect();
    let repetitions = words.first().and_then(|word| word.parse().ok());
    let repetitions = repetitions.unwrap_or(101);
    let port = port::linked().unwrap_or_else(|| Box::new(Model));
    println!("port: {}, on {}", port.name(), std::env::consts::ARCH);
    if !published_as_is::PRESENT {
        println!("the published Rust was not found when this was built: its times are left out");
    }
    println!("n = {N} where no other is named; medians in microseconds");
    let mut bench = Bench {
        port,
        repetitions,
        rand: Rand::new(1),
        ratios: Ratios::default(),
    };
    match words.get(1).map(String::as_str) {
        Some("totals") => bench.totals(),
        Some("numbers") => bench.coded(),
        Some("pins") => bench.pins(),
        Some("packed") => bench.packed(),
        Some("teams") => {
            single_moves(&mut bench, Some(MANY));
            bench.teams();
        }
        Some("vendor") => bench.vendor(),
        Some("steps") => bench.steps(),
        Some("threads") => bench.threads(),
        _ => all(&mut bench),
    }
}

/// The systems of a panel that has more than a group: since 12/14 the tests of a move look at its group's rows alone.
const MANY: usize = 64;

/// On a panel of so many systems, or of the group alone.
fn single_moves(bench: &mut Bench, systems: Option<usize>) {
    let s = systems.map_or("N".to_string(), |s| s.to_string());
    let title = format!("Single moves, S = {s}: move / Rust; behind it whole call / Rust");
    by_size(bench, &title, |bench, mode, form, d, m| {
        bench.single_cell(mode, form, d, m, systems.unwrap_or(m))
    });
}

fn all(bench: &mut Bench) {
    single_moves(bench, None);
    single_moves(bench, Some(MANY));
    by_size(
        bench,
        "Sweeps, t = 8, r = 8: whole call / Rust",
        |bench, mode, form, d, m| bench.sweep_cell(mode, form, d, m),
    );
    grown_sweeps(bench);
    bench.one_cluster();
    small_panels(bench);
    bench.totals();
    bench.tables();
    bench.labelling();
    println!("\nparts");
    bench.spin_test_line();
    bench.meter_line();
    println!("\ndraws");
    bench.draws();
    println!("\nedge lists");
    bench.edges();
    bench.coded();
    bench.pins();
    bench.packed();
    bench.teams();
    bench.vendor();
    bench.steps();
    bench.threads();
}
