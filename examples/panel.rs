//! A small panel through the safe crate: a torus of 4 by 4 sites, four systems at two temperatures, one sweep of each mode
//! in the all-clusters form, a sweep that is refused, and one that grows a cluster in each task. Behind each of the first
//! stand the components that were found in its tasks, and the first task's sites by their numbers. The sweeps keep each
//! system's energy as a total, which is metered before them, handed over, and held to the meter after each. Then a group of
//! five is moved by permutations that are lent as numbers, and once more by their rows, and checked as a vendor's. Then some
//! sites are pinned: a sweep of one cluster in each task says how many of them a pin holds, and so does a move. Up to there one
//! team has the whole panel; last, two of its systems go to another, which moves these and leaves what is the first's. The
//! couplings come from an edge list, in the file that is named behind the program, or else in examples/panel.edges; every
//! choice is drawn from one seed, so that each run is the same. panel.c is the same program in C; both print panel.out.
use std::error::Error;
use tsorvenk::{
    refusal_words, Form, HandOver, Keeps, MeterAll, Mode, ReadEdges, Refusal, Source, Sweep, Swept,
    WriteEdges, EDGES_ROOM,
};

#[path = "panel/five.rs"]
mod five;
#[path = "panel/pins.rs"]
mod pins;
#[path = "panel/teams.rs"]
mod teams;

const SIDE: usize = 4;
const N: usize = SIDE * SIDE;
const D: usize = 2;
const S: usize = 4;
const T: usize = 2;
const R: usize = 2;
const MEMBERS: usize = 2;
const TASKS: usize = T * (R / MEMBERS);

/// What all draws of a run come from.
const SEED: [u64; 4] = [
    0x0123456789abcdef,
    0xfedcba9876543210,
    0x0f1e2d3c4b5a6978,
    0x8796a5b4c3d2e1f0,
];

const TEMPERATURES: [f32; T] = [1.0, 2.5];

/// Minus the logarithms of eight numbers spread over (0, 1].
const CUTS: [f32; 8] = [
    2.7726, 1.6740, 1.1632, 0.8267, 0.5754, 0.3747, 0.2076, 0.0645,
];

/// What a sweep writes.
#[derive(Clone, PartialEq)]
struct Outputs {
    totals: [i64; S],
    spins: [i8; S * N],
    labels: [u32; TASKS * N],
    grey_labels: [u32; TASKS * N],
    counts: [u32; TASKS * (N + 1)],
    sizes: [u32; TASKS * 4],
    found: [u32; TASKS],
    grey_found: [u32; TASKS],
}

/// The draws of one sweep, for every mode.
struct Choices {
    cuts: [f32; TASKS * N * D],
    references: [u32; TASKS],
    flips: [u8; TASKS * N],
    perms: [u8; TASKS * N * MEMBERS],
    greys: [u8; TASKS * N],
}

struct Panel {
    fwd: [u32; N * D],
    bwd: [u32; N * D],
    couplings: [i32; N * D],
}

/// A coin as a spin.
fn sign(coin: u8) -> i8 {
    if coin == 1 {
        1
    } else {
        -1
    }
}

/// The couplings of the list in a file; then they are written back as a list.
fn read_couplings(path: &str, panel: &mut Panel) -> Result<(), Box<dyn Error>> {
    let text = std::fs::read(path).map_err(|_| format!("{path} cannot be read"))?;
    tsorvenk::read_edges(ReadEdges {
        n: N,
        d: D,
        fwd: &panel.fwd,
        bwd: &panel.bwd,
        text: &text,
        couplings: &mut panel.couplings,
    })?;
    let back = tsorvenk::write_edges(WriteEdges {
        n: N,
        d: D,
        fwd: &panel.fwd,
        bwd: &panel.bwd,
        couplings: &panel.couplings,
        text: &mut vec![0; EDGES_ROOM],
    })? == text;
    let how = if back { "as they were" } else { "otherwise" };
    println!("edge list\n  {} bytes, written back {how}", text.len());
    Ok(())
}

fn make_panel(path: &str, source: &mut Source) -> Result<(Panel, Outputs), Box<dyn Error>> {
    let mut panel = Panel {
        fwd: [0; N * D],
        bwd: [0; N * D],
        couplings: [0; N * D],
    };
    for i in 0..N {
        let (x, y) = (i % SIDE, i / SIDE);
        panel.fwd[i * D] = (y * SIDE + (x + 1) % SIDE) as u32;
        panel.fwd[i * D + 1] = ((y + 1) % SIDE * SIDE + x) as u32;
        panel.bwd[i * D] = (y * SIDE + (x + SIDE - 1) % SIDE) as u32;
        panel.bwd[i * D + 1] = ((y + SIDE - 1) % SIDE * SIDE + x) as u32;
    }
    read_couplings(path, &mut panel)?;
    let mut outputs = Outputs {
        totals: [0; S],
        spins: [0; S * N],
        labels: [0; TASKS * N],
        grey_labels: [0; TASKS * N],
        counts: [0; TASKS * (N + 1)],
        sizes: [0; TASKS * 4],
        found: [0; TASKS],
        grey_found: [0; TASKS],
    };
    let mut coins = [0; S * N];
    source.fill_flips(&mut coins)?;
    outputs.spins = coins.map(sign);
    Ok((panel, outputs))
}

/// The library draws every choice but the cuts, for which an index is drawn.
fn make_choices(source: &mut Source) -> Result<Choices, Refusal> {
    let mut c = Choices {
        cuts: [0.0; TASKS * N * D],
        references: [0; TASKS],
        flips: [0; TASKS * N],
        perms: [0; TASKS * N * MEMBERS],
        greys: [0; TASKS * N],
    };
    let mut cuts = [0; TASKS * N * D];
    source.fill_bytes_below(8, &mut cuts)?;
    c.cuts = cuts.map(|cut| CUTS[usize::from(cut)]);
    source.fill_below(N as u32, &mut c.references)?;
    source.fill_flips(&mut c.flips)?;
    source.fill_permutations(MEMBERS, &mut c.perms)?;
    source.fill_bytes_below(4, &mut c.greys)?;
    Ok(c)
}

/// What every sweep here takes; what is not named is left out.
fn lent<'a>(
    panel: &'a Panel,
    c: &'a Choices,
    spins: &'a mut [i8],
    totals: &'a mut [i64],
) -> Sweep<'a> {
    Sweep {
        keeps: Keeps::Totals,
        n: N,
        d: D,
        s: S,
        t: T,
        r: R,
        members: MEMBERS,
        spins,
        totals,
        fwd: &panel.fwd,
        bwd: &panel.bwd,
        couplings: &panel.couplings,
        order: &[0, 1, 2, 3],
        masks: &[0; T],
        temperatures: &TEMPERATURES,
        cuts: &c.cuts,
        ..Default::default()
    }
}

/// What only some modes take may be lent in all.
fn sweep(mode: Mode, panel: &Panel, c: &Choices, o: &mut Outputs) -> Result<Swept, Refusal> {
    tsorvenk::sweep(Sweep {
        mode,
        form: Form::Sw,
        references: &c.references,
        flips: &c.flips,
        perms: &c.perms,
        greys: &c.greys,
        labels: &mut o.labels,
        grey_labels: &mut o.grey_labels,
        counts: &mut o.counts,
        sizes: &mut o.sizes,
        found: &mut o.found,
        grey_found: &mut o.grey_found,
        ..lent(panel, c, &mut o.spins, &mut o.totals)
    })
}

/// The first site at which each task's two systems differ: there they act.
fn find_seeds(spins: &[i8]) -> [u32; TASKS] {
    std::array::from_fn(|k| {
        let (a, b) = spins[k * MEMBERS * N..].split_at(N);
        (0..N - 1).find(|&i| a[i] != b[i]).unwrap_or(N - 1) as u32
    })
}

/// One cluster in each task. No labels, counts and sizes are taken.
fn grow(
    panel: &Panel,
    c: &Choices,
    member_sites: &mut [u8],
    o: &mut Outputs,
) -> Result<Swept, Refusal> {
    let seeds = find_seeds(&o.spins);
    tsorvenk::sweep(Sweep {
        mode: Mode::Jorg,
        form: Form::Grow,
        seeds: &seeds,
        member_sites,
        ..lent(panel, c, &mut o.spins, &mut o.totals)
    })
}

/// The energies of all systems.
fn meter(panel: &Panel, spins: &[i8]) -> Result<[i64; S], Refusal> {
    let mut totals = [0; S];
    tsorvenk::meter_all(MeterAll {
        n: N,
        d: D,
        s: S,
        spins,
        totals: &mut totals,
        fwd: &panel.fwd,
        bwd: &panel.bwd,
        couplings: &panel.couplings,
        ..Default::default()
    })?;
    Ok(totals)
}

fn hand_over(panel: &Panel, o: &Outputs) -> u8 {
    let answer = tsorvenk::hand_over(HandOver {
        n: N,
        d: D,
        s: S,
        spins: &o.spins,
        totals: &o.totals,
        fwd: &panel.fwd,
        bwd: &panel.bwd,
        couplings: &panel.couplings,
        ..Default::default()
    });
    answer.map_or_else(|refusal| refusal.number, |()| 0)
}

fn print_grown(answer: Result<Swept, Refusal>, member_sites: &[u8]) {
    match answer {
        Err(refusal) => println!("jorg grown: refused with {}", refusal.number),
        Ok(Swept { idle, moved, .. }) => {
            let members: Vec<String> = member_sites
                .chunks(N)
                .map(|sites| format!(" {}", sites.iter().map(|&b| u32::from(b)).sum::<u32>()))
                .collect();
            println!(
                "jorg grown: {idle} idle, {moved} moved; members{}",
                members.join(",")
            );
        }
    }
}

fn print_totals(panel: &Panel, o: &Outputs) -> Result<(), Refusal> {
    let how = match meter(panel, &o.spins)? == o.totals {
        true => "as metered",
        false => "metered otherwise",
    };
    let totals: Vec<String> = o.totals.iter().map(|total| format!(" {total:4}")).collect();
    println!("  totals{}, {how}", totals.concat());
    Ok(())
}

/// The totals are metered once, and handed over; so is one that is wrong.
fn start_totals(panel: &Panel, o: &mut Outputs) -> Result<(), Refusal> {
    o.totals = meter(panel, &o.spins)?;
    print_totals(panel, o)?;
    println!("  handed over: {}", refusal_words(hand_over(panel, o)));
    o.totals[0] += 1;
    let number = hand_over(panel, o);
    println!("  handed over with one too large: refused with {number}");
    o.totals[0] -= 1;
    Ok(())
}

/// How many components each task has, those of sites that do not act too, and the number of each site's in the first.
fn print_numbers(what: &str, found: &[u32], labels: &[u32]) {
    let all = |numbers: &[u32], between: &str| {
        let words: Vec<String> = numbers.iter().map(|number| format!(" {number}")).collect();
        words.join(between)
    };
    let (found, labels) = (all(found, ","), all(&labels[..N], ""));
    println!("  {what}{found}; numbers of the first{labels}");
}

fn print_sweep(mode: Mode, answer: Result<Swept, Refusal>, o: &Outputs) {
    match answer {
        Err(refusal) => println!("{}: refused with {}", mode.name(), refusal.number),
        Ok(Swept { idle, moved, .. }) => {
            let largest: Vec<String> = o
                .sizes
                .chunks(4)
                .map(|z| format!(" {} {} {} {}", z[0], z[1], z[2], z[3]))
                .collect();
            println!(
                "{}: {idle} idle, {moved} moved; largest components{}",
                mode.name(),
                largest.join(",")
            );
            print_numbers("found", &o.found, &o.labels);
            if mode == Mode::Cmr {
                print_numbers("grey found", &o.grey_found, &o.grey_labels);
            }
        }
    }
}

fn main() -> Result<(), Box<dyn Error>> {
    let path = std::env::args().nth(1);
    let path = path.unwrap_or("examples/panel.edges".to_string());
    let mut source = Source::new(SEED)?;
    let (panel, mut o) = make_panel(&path, &mut source)?;
    println!("start");
    start_totals(&panel, &mut o)?;
    for mode in Mode::ALL {
        let c = make_choices(&mut source)?;
        let answer = sweep(mode, &panel, &c, &mut o);
        print_sweep(mode, answer, &o);
        print_totals(&panel, &o)?;
    }
    // A fault in the last task: the first task does not move either.
    let mut c = make_choices(&mut source)?;
    c.flips[TASKS * N - 1] = 2;
    let before = o.clone();
    let answer = sweep(Mode::Pair, &panel, &c, &mut o);
    print_sweep(Mode::Pair, answer, &o);
    println!(
        "  {}",
        if before == o {
            "every buffer is as it was"
        } else {
            "buffers were written"
        }
    );
    print_totals(&panel, &o)?;
    let c = make_choices(&mut source)?;
    let mut member_sites = [0; TASKS * N];
    let answer = grow(&panel, &c, &mut member_sites, &mut o);
    print_grown(answer, &member_sites);
    print_totals(&panel, &o)?;
    five::move_five(&panel, &mut source, &mut o)?;
    pins::hold_some(&panel, &c, &mut o)?;
    teams::share(&panel, &c, &mut o)?;
    Ok(())
}
