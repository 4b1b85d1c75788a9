//! count: instructions of one call, by callgrind, for the port and for the published Rust.
//!
//! A fixed sweep of each mode and form, n = 4096, D = 2, N = 2, t = 8, r = 8, runs twice and twelve times; a tenth of the
//! difference is one call. Counts do not depend on what else the machine does.
//!
//! Then a call that grows a cluster of ten sites, at n = 256 and n = 4096. Its tests are the same call refused by the last of
//! them. What clearing the members takes is an idle call less one that is refused with 10, both after a look at every site.
//!
//! count growths, count totals, count packed: those alone, what keeping totals takes beside metering anew, and moves on one byte
//! for a site's group beside moves on rows.
use calls::{Answer, Form, Mode};
use published_as_is::Sweeper;
use std::env;
use std::process::Command;
use tsorvenk_runs::case::Single;
use tsorvenk_runs::port;
use tsorvenk_runs::rand::Rand;
use tsorvenk_runs::timing;

mod packed;
mod totals;

const FEW: usize = 2;
const MORE: usize = 12;

fn run(side: &str, mode: Mode, form: Form, times: usize) {
    let mut rand = Rand::new(1);
    let case = timing::swept(&mut rand, mode, form, 2, 2);
    let mut lent = case.lent.clone();
    if side == "port" {
        let mut port = port::linked().expect("the port is linked");
        (0..times).for_each(|_| {
            lent.spins.copy_from_slice(&case.lent.spins);
            port.sweep(case.sweep(&mut lent));
        });
        return;
    }
    let mut sweeper = Sweeper::new(&case.sweep(&mut lent), form != Form::Grow);
    let mut spins = case.lent.spins.clone();
    (0..times).for_each(|_| {
        spins.copy_from_slice(&case.lent.spins);
        sweeper.run(&mut spins);
    });
}

/// Two systems on a square that differ in five by two sites; bonds that are drawn hold there alone.
fn ten(mode: Mode, n: usize) -> Single {
    let mut rand = Rand::new(1);
    let side = n.isqrt();
    let inside = |site: usize| (3..8).contains(&(site % side)) && (3..5).contains(&(site / side));
    let mut panel = timing::panel_of(&mut rand, mode, Form::Grow, n, 2, 2);
    panel.couplings = (0..2 * n)
        .map(|bond| i32::from(inside(bond / 2) && inside(panel.fwd[bond] as usize)))
        .collect();
    let differ = |at: usize| mode != Mode::Cmr && at >= n && inside(at - n);
    let spins = (0..2 * n).map(|at| if differ(at) { -1 } else { 1 });
    let mut case = timing::single_on(&mut rand, panel, 2, spins.collect());
    case.temperature = 0.01;
    case.seed = 3 + 3 * side;
    case
}

/// The call and what it must answer: that of ten sites, the same refused by its last test, and in pair, whose tests come to a
/// look at every site where the seed does not act, one that is idle and one whose last site alone acts.
fn part(what: &str, mode: Mode, n: usize) -> (Single, Answer) {
    let mut case = ten(mode, n);
    let answer = match what {
        "grown" => Answer::Moved,
        "refused" => {
            case.seed = n;
            Answer::Refused(10)
        }
        _ => {
            case = ten(Mode::Pair, n);
            case.lent.spins.fill(1);
            Answer::Idle
        }
    };
    if what == "scanned" {
        case.lent.spins[2 * n - 1] = -1;
        return (case, Answer::Refused(10));
    }
    (case, answer)
}

fn run_part(what: &str, mode: Mode, n: usize, times: usize) {
    let (case, answer) = part(what, mode, n);
    let mut lent = case.lent.clone();
    let mut port = port::linked().expect("the port is linked");
    (0..times).for_each(|_| {
        lent.spins.copy_from_slice(&case.lent.spins);
        assert_eq!(port.step(case.step(&mut lent)), answer);
    });
}

/// The total that callgrind prints at the end of its summary.
fn instructions(words: &[&str], times: usize) -> f64 {
    let output = Command::new("valgrind")
        .args(["--tool=callgrind", "--callgrind-out-file=/dev/null"])
        .arg(env::current_exe().unwrap())
        .args(words)
        .arg(times.to_string())
        .output()
        .expect("valgrind is installed");
    let text = String::from_utf8_lossy(&output.stderr).into_owned();
    let total = text.lines().rev().find_map(|line| {
        line.split_once("Collected : ")
            .and_then(|(_, count)| count.trim().parse().ok())
    });
    total.unwrap_or_else(|| panic!("no count in {text}"))
}

fn one_call(words: &[&str]) -> f64 {
    (instructions(words, MORE) - instructions(words, FEW)) / (MORE - FEW) as f64
}

fn sweeps() {
    for mode in Mode::ALL {
        for form in Form::ALL {
            let [m, f] = [mode as usize, form as usize].map(|number| number.to_string());
            let (port, rust) = (one_call(&["port", &m, &f]), one_call(&["rust", &m, &f]));
            let name = format!("{} {}", mode.name(), form.name());
            println!(
                "{name:14} port {port:12.0} | Rust {rust:12.0} ({:4.2})",
                port / rust
            );
        }
    }
}

/// The growth of ten sites, with tests and clearing taken out.
fn growth(mode: Mode, n: usize) -> f64 {
    let (m, size) = ((mode as usize).to_string(), n.to_string());
    let of = |what: &str| one_call(&[what, &m, &size]);
    let (grown, tests) = (of("grown"), of("refused"));
    let clearing = of("idle") - of("scanned");
    let growth = grown - tests - clearing;
    println!(
        "{:6} n = {n:4} call {grown:8.0} = tests {tests:8.0} + clearing {clearing:6.0} + growth {growth:6.0}",
        mode.name()
    );
    growth
}

fn growths() {
    println!("ten sites grown, D = 2, N = 2");
    for mode in Mode::ALL {
        let (small, large) = (growth(mode, 256), growth(mode, 4096));
        println!("{:6} {:+.1} %", mode.name(), 100.0 * (large / small - 1.0));
    }
}

fn main() {
    let words: Vec<String> = env::args().skip(1).collect();
    let number = |word: &String| word.parse::<usize>().expect("a number");
    if let [what, case @ .., times] = words.as_slice() {
        if let &[mode, form, d, members, share] = &case.iter().map(number).collect::<Vec<_>>()[..] {
            return totals::run(what, [mode, form, d, members, share], number(times));
        }
    }
    if let [what, mode, last, times] = words.as_slice() {
        let (mode, last, times) = (Mode::ALL[number(mode)], number(last), number(times));
        return match what.as_str() {
            "port" | "rust" => run(what, mode, Form::ALL[last], times),
            "rows" | "many" | "bytes" | "pack" | "unpack" => packed::run(what, mode, Form::ALL[last], times),
            _ => run_part(what, mode, last, times),
        };
    }
    if port::linked().is_none() || !published_as_is::PRESENT {
        println!("left out: the port or the published Rust was not found when this was built");
        return;
    }
    match words.first().map(String::as_str) {
        Some("totals") => totals::all(),
        Some("packed") => packed::all(),
        Some("growths") => growths(),
        _ => {
            sweeps();
            growths();
        }
    }
}

#[test]
fn the_parts_are_what_they_are_said_to_be() {
    for mode in Mode::ALL {
        for n in [256, 4096] {
            for what in ["grown", "refused", "idle", "scanned"] {
                let (case, answer) = part(what, mode, n);
                let (found, lent) = case.run(&mut tsorvenk_runs::model::Model);
                assert_eq!(found, answer, "{mode:?} {n} {what}");
                let members: usize = lent.member_sites.iter().map(|&b| usize::from(b)).sum();
                assert_eq!(members, if what == "grown" { 10 } else { 0 });
            }
        }
    }
}
