//! replay: prints the replay list, a sample of the published Rust's answers (format: src/replay.rs).
//! replay check < list: replays a list with the model, and with the port where it is linked.
use calls::{Answer, Coding, Form, Keeps, Mode, Port, SweepAnswer};
use std::io::Read;
use std::process::ExitCode;
use tsorvenk_runs::case::{Lent, Single, Swept};
use tsorvenk_runs::idle;
use tsorvenk_runs::make::{self, Size};
use tsorvenk_runs::model::Model;
use tsorvenk_runs::port;
use tsorvenk_runs::rand::Rand;
use tsorvenk_runs::replay::{
    fraction, head, write, Entry, Reader, ALONE, DOUBLE_BOND, IDLE, ODD, SELF_BOND, UNTOUCHED,
};

const SINGLES: usize = 10;
const SWEEPS: usize = 4;

fn small(case: &Swept) -> bool {
    let panel = &case.panel;
    let numbers = [&case.temperatures, &case.choices.cuts];
    let exact = |number: &f32| fraction(*number).is_some();
    let tasks = case.t * (case.r / case.members);
    panel.n * panel.d <= 12
        && panel.n <= 8
        && panel.s <= 8
        && tasks <= 4
        && (!panel.mode.draws() || numbers.iter().all(|numbers| numbers.iter().all(exact)))
}

/// A single move in the form of a sweep of one group; what the call does not take is left out.
fn from_single(case: Single) -> Swept {
    let draws = case.panel.mode.draws();
    let kept = |taken: bool, value: usize| if taken { vec![value as u32] } else { vec![] };
    Swept {
        t: 1,
        r: case.group.len(),
        members: case.group.len(),
        masks: vec![0],
        temperatures: if draws {
            vec![case.temperature]
        } else {
            vec![]
        },
        references: kept(case.panel.mode == Mode::Gperm, case.reference),
        seeds: kept(case.panel.form == Form::Wolff, case.seed),
        order: case.group,
        choices: case.choices,
        lent: case.lent,
        panel: case.panel,
    }
}

/// Empties what the call does not take and marks every output as untouched.
fn tidy(case: &mut Swept) {
    let panel = &mut case.panel;
    let (mode, form) = (panel.mode, panel.form);
    let tasks = case.t * (case.r / case.members);
    let exact = tsorvenk_runs::model::lengths(mode, form, panel.n, panel.d, case.members, tasks);
    fn keep<T>(buffer: &mut Vec<T>, length: Option<usize>) {
        buffer.truncate(length.unwrap_or(0));
    }
    keep(&mut panel.couplings, exact.couplings);
    keep(&mut case.temperatures, mode.draws().then_some(case.t));
    keep(&mut case.references, exact.references);
    keep(&mut case.seeds, exact.seeds);
    keep(&mut case.choices.cuts, exact.cuts);
    keep(&mut case.choices.flips, exact.flips);
    keep(&mut case.choices.perms, exact.perms);
    keep(&mut case.choices.greys, exact.greys);
    keep(&mut case.lent.grey_labels, exact.grey_labels);
    keep(&mut case.lent.grey_found, exact.grey_found);
    let lent = &mut case.lent;
    for output in [
        &mut lent.labels,
        &mut lent.grey_labels,
        &mut lent.counts,
        &mut lent.sizes,
        &mut lent.found,
        &mut lent.grey_found,
    ] {
        output.fill(UNTOUCHED);
    }
    lent.member_sites.clear();
    lent.totals.clear();
    panel.pins.fill(0);
    (panel.coding, panel.keeps) = (Coding::Rows, Keeps::Nothing);
}

/// The acting sites of each unmasked task, as the Rust's own seed search finds them; in CMR every site.
fn acting(case: &Swept) -> Vec<(usize, Vec<bool>)> {
    let groups = case.r / case.members;
    (0..case.t * groups)
        .filter(|task| case.masks[task / groups] == 0)
        .map(|task| {
            if case.panel.mode == Mode::Cmr {
                return (task, vec![true; case.panel.n]);
            }
            let from = task / groups * case.r + task % groups * case.members;
            let bonds = case.panel.n * case.panel.d;
            let mut choices = case.choices.clone();
            if case.panel.mode.draws() {
                choices.cuts = choices.cuts[task * bonds..(task + 1) * bonds].to_vec();
            }
            let single = Single {
                panel: case.panel.clone(),
                group: case.order[from..from + case.members].to_vec(),
                temperature: case.temperatures.get(task / groups).map_or(1.0, |&t| t),
                reference: case.references.get(task).map_or(0, |&site| site as usize),
                seed: 0,
                choices,
                lent: case.lent.clone(),
            };
            let mut lent = single.lent.clone();
            (task, published_patched::active(&single.step(&mut lent)))
        })
        .collect()
}

fn lattice_marks(case: &Swept) -> u8 {
    let (n, d, fwd) = (case.panel.n, case.panel.d, &case.panel.fwd);
    let mut pairs: Vec<(usize, usize)> = (0..n * d)
        .map(|bond| (bond / d, fwd[bond] as usize))
        .map(|(i, j)| (i.min(j), i.max(j)))
        .collect();
    let own = pairs.iter().any(|(i, j)| i == j);
    pairs.retain(|(i, j)| i != j);
    pairs.sort();
    let double = pairs.windows(2).any(|pair| pair[0] == pair[1]);
    SELF_BOND * u8::from(own) + DOUBLE_BOND * u8::from(double)
}

/// The Rust's answer to a case, with the sites that do not act taken out of what is counted.
fn answered(single: bool, case: Swept) -> Entry {
    let n = case.panel.n;
    let acting = acting(&case);
    let mut after = case.lent.clone();
    published_patched::sweep(
        case.sweep(&mut after),
        published_patched::Branch::UnionFind,
        true,
    );
    for (task, acts) in &acting {
        idle::take_out_of_task(acts, *task, &mut after);
    }
    let idle = acting.iter().filter(|(_, a)| !a.contains(&true)).count();
    let alone = acting.iter().any(|(task, acts)| {
        let labels = &after.labels[task * n..(task + 1) * n];
        (0..n).any(|i| acts[i] && labels.iter().filter(|&&label| label == labels[i]).count() == 1)
    });
    let flips = matches!(case.panel.mode, Mode::Houd | Mode::Pair | Mode::Jorg);
    let odd = flips && case.members % 2 == 1;
    Entry {
        single,
        marks: lattice_marks(&case)
            + ODD * u8::from(odd)
            + IDLE * u8::from(idle > 0)
            + ALONE * u8::from(alone),
        idle: idle as u8,
        moved: (acting.len() - idle) as u8,
        after,
        case,
    }
}

/// The choices of one kind with each component's taken from its smallest site instead of from its number.
fn at_smallest_sites(of: &[u8], labels: &[u32], n: usize) -> Vec<u8> {
    let width = of.len() / labels.len();
    let mut moved = of.to_vec();
    for (site, &label) in labels.iter().enumerate() {
        let area = site - site % n;
        // of a masked task no entry is used
        let first = label != UNTOUCHED && !labels[area..site].contains(&label);
        if first {
            let to = (area + label as usize) * width;
            moved[to..to + width].copy_from_slice(&of[site * width..(site + 1) * width]);
        }
    }
    moved
}

/// Whether the choices found by number move otherwise than the same found by smallest site would.
fn by_number(entry: &Entry) -> bool {
    let mut other = entry.clone();
    let (n, choices) = (entry.case.panel.n, &mut other.case.choices);
    for (of, labels) in [
        (&mut choices.flips, &entry.after.labels),
        (&mut choices.perms, &entry.after.labels),
        (&mut choices.greys, &entry.after.grey_labels),
    ] {
        if !of.is_empty() {
            *of = at_smallest_sites(of, labels, n);
        }
    }
    let (idle, moved, lent) = replayed(&other, &mut Model);
    assert_eq!((idle, moved), (entry.idle, entry.moved));
    lent.spins != entry.after.spins
}

fn random(rand: &mut Rand, mode: Mode, form: Form, single: bool) -> Entry {
    loop {
        let mut case = match single {
            true => from_single(make::single(rand, mode, form, Size::Tiny)),
            false => make::swept(rand, mode, form, Size::Tiny),
        };
        tidy(&mut case);
        let mut plain = case.clone();
        plain.masks.fill(0);
        if small(&plain) {
            if !single {
                make::spoil_masked(&mut case);
            }
            return answered(single, case);
        }
    }
}

/// A move of houd has two systems, so that none is odd (10/14).
fn wanted(mode: Mode, form: Form) -> Vec<u8> {
    let mut marks = vec![ALONE, SELF_BOND, DOUBLE_BOND];
    if mode != Mode::Cmr {
        marks.push(IDLE);
    }
    let flips = matches!(mode, Mode::Houd | Mode::Pair | Mode::Jorg);
    if flips && mode.most_members(form) > 2 {
        marks.push(ODD);
    }
    marks
}

/// One case for each mark, the rest with something moved where the form moves anything, and in SW by choices that have to be
/// found by number.
fn sample(rand: &mut Rand, mode: Mode, form: Form, single: bool, count: usize) -> Vec<Entry> {
    let marks = wanted(mode, form);
    (0..count)
        .map(|number| loop {
            let entry = random(rand, mode, form, single);
            let changed = entry.after.spins != entry.case.lent.spins;
            let fits = match marks.get(number) {
                Some(mark) => entry.marks & mark != 0,
                None if form == Form::Sw => by_number(&entry),
                None => form == Form::Observe || changed,
            };
            if fits {
                break entry;
            }
        })
        .collect()
}

fn make() -> ExitCode {
    if !published_patched::PRESENT {
        eprintln!("published Rust: left out, it was not found when this was built; no list");
        return ExitCode::SUCCESS;
    }
    let mut entries = Vec::new();
    for mode in Mode::ALL {
        for form in Form::LABELLED {
            let mut rand = Rand::of(&[7, mode as u64, form as u64]);
            entries.extend(sample(&mut rand, mode, form, true, SINGLES));
            entries.extend(sample(&mut rand, mode, form, false, SWEEPS));
        }
    }
    print!("{}", head(entries.len()));
    for entry in &entries {
        print!("{}", write(entry));
    }
    ExitCode::SUCCESS
}

fn replayed(entry: &Entry, side: &mut dyn Port) -> (u8, u8, Lent) {
    if entry.single {
        let (answer, lent) = entry.as_single().run(side);
        let idle = u8::from(answer == Answer::Idle);
        let moved = u8::from(answer == Answer::Moved);
        return (idle, moved, lent);
    }
    match entry.case.run(side) {
        (
            SweepAnswer::Swept {
                idle,
                moved,
                held: 0,
            },
            lent,
        ) => (idle as u8, moved as u8, lent),
        (_, lent) => (255, 255, lent),
    }
}

fn check() -> ExitCode {
    let mut list = String::new();
    std::io::stdin().read_to_string(&mut list).unwrap();
    let entries = Reader::new(&list).entries();
    let mut sides: Vec<Box<dyn Port>> = vec![Box::new(Model)];
    sides.extend(port::linked());
    let mut differences = 0;
    for side in &mut sides {
        for (number, entry) in entries.iter().enumerate() {
            let expected = (entry.idle, entry.moved, entry.after.clone());
            if replayed(entry, side.as_mut()) != expected {
                differences += 1;
                println!("{}: case {number} differs", side.name());
            }
        }
        println!("{}: {} cases replayed", side.name(), entries.len());
    }
    match differences {
        0 => ExitCode::SUCCESS,
        _ => ExitCode::FAILURE,
    }
}

fn main() -> ExitCode {
    match std::env::args().nth(1).as_deref() {
        None => make(),
        Some("check") => check(),
        Some(_) => {
            eprintln!("replay, or replay check < list");
            ExitCode::from(2)
        }
    }
}
