//! compare [cases] [seed] [vendor|steps]: the model of document 01, the published Rust and the port on the same random calls.
//!
//! `cases` is the number of random single moves, and of sweeps, for each mode and form (default 2000). Each is also
//! damaged; damaged calls go to the model and the port alone, since the Rust checks nothing. Before them come all single
//! moves of those small shapes that have at most 100 times as many, and no more than 200000. A call that grows is also held
//! to Wolff's call with the same seed, cuts and choices, damaged or not. Half of the calls keep totals, and all of the small
//! shapes. A call of perm or gperm that moves a group of five is made again by numbers, damaged or not, and held to what the
//! rows gave; with groups of other sizes it is refused. Half as many calls more are of groups of five, with faults among their
//! numbers too. Houd moves groups of two alone, and every call of two is made again by pair, damaged or not; half as many calls
//! more are moves of three to eight, which are refused with 15, and damaged ones of them. Two calls of three have pins, and the
//! small shapes have all of them where there are not too many; the Rust, which knows none, is then held to the call without pins
//! that must give the same, where there is one. Every single move, damaged or not, is made again on its group's bytes, by numbers
//! too, and held to what the rows gave; as many more are on bytes with faults of their own, and are held to the move on the rows
//! that these bytes stand for. As many moves and sweeps more are made on a panel that another team's systems share, twice, with
//! rubbish in every row and total that the call does not name, and held to the call of a team that has the panel for itself; then
//! they are damaged. As many moves more of perm and gperm, in every form, are checked as a vendor's, each of them then changed in every
//! way of `vendor::make` and damaged; the port is held to a model that tries every permutation. As many sweeps more, half of them among another
//! team's systems, are made by their tasks' steps in shuffled orders and held to the sweep as one call; as many moves by their three steps, each held to the
//! model's, also on lists and columns that the step before it did not leave; and all of them are damaged. Last come days that keep totals, a
//! thousand calls each on one panel, some of them on bytes, with pins that change from call to call, every second one of two teams,
//! whose calls are mixed; one day for every 50 cases. With the word `vendor` only a vendor's moves are
//! checked, with `steps` only steps.
use calls::{Coding, Form, Mode, Port};
use std::process::ExitCode;
use tsorvenk_runs::compare::{self, keep, Found, Line};
use tsorvenk_runs::make::{self, Size};
use tsorvenk_runs::rand::Rand;
use tsorvenk_runs::steps::{Task, Which};
use tsorvenk_runs::{damage, days, exhaustive, port, teams, vendor};

/// What is checked and nothing else.
#[derive(Clone, Copy, PartialEq)]
enum Alone {
    Vendor,
    Steps,
}

struct Run {
    cases: u64,
    seed: u64,
    alone: Option<Alone>,
    port: Option<Box<dyn Port>>,
    smallest: Option<Found>,
}

impl Run {
    /// A generator for each case, so that any of them can be made again by itself.
    fn rand(&self, mode: Mode, form: Form, kind: u64, case: u64) -> Rand {
        Rand::of(&[self.seed, mode as u64, form as u64, kind, case])
    }

    /// Small shapes with more single moves than this are left to chance.
    fn small(&self) -> usize {
        (100 * self.cases).min(200_000) as usize
    }

    fn note(&mut self, found: Option<Found>) {
        if let Some(found) = found {
            keep(&mut self.smallest, found);
        }
    }

    fn single(&mut self, mode: Mode, form: Form, number: u64, line: &mut Line) {
        let mut rand = self.rand(mode, form, 0, number);
        let size = Size::mixed(&mut rand);
        let mut case = make::single(&mut rand, mode, form, size);
        let found = compare::single(&case, self.port.as_mut(), line);
        self.note(found);
        let mut bonds = make::bonds(&mut rand, &case.panel);
        let found = compare::labelling(&bonds, self.port.as_mut(), line);
        self.note(found);
        damage::bonds(&mut rand, &mut bonds);
        let found = compare::damaged_labelling(&bonds, self.port.as_mut(), line);
        self.note(found);
        damage::single(&mut rand, &mut case);
        let found = compare::damaged_single(&case, self.port.as_mut(), line);
        self.note(found);
    }

    fn sweep(&mut self, mode: Mode, form: Form, number: u64, line: &mut Line) {
        let mut rand = self.rand(mode, form, 1, number);
        let size = Size::mixed(&mut rand);
        let mut case = make::swept(&mut rand, mode, form, size);
        let found = compare::swept(&case, self.port.as_mut(), line);
        self.note(found);
        damage::swept(&mut rand, &mut case);
        let found = compare::damaged_sweep(&case, self.port.as_mut(), line);
        self.note(found);
    }

    /// A move and a sweep of groups of five; damaged ones by rows and by numbers.
    fn of_five(&mut self, mode: Mode, form: Form, number: u64, line: &mut Line) {
        let mut rand = self.rand(mode, form, 2, number);
        let size = Size::mixed(&mut rand);
        let mut case = make::single_of(&mut rand, mode, form, size, 5);
        let mut coded = case.by_number();
        damage::single(&mut rand, &mut coded);
        let found = compare::single(&case, self.port.as_mut(), line);
        self.note(found);
        damage::single(&mut rand, &mut case);
        for case in [case, coded] {
            let found = compare::damaged_single(&case, self.port.as_mut(), line);
            self.note(found);
        }
        let mut case = make::swept_of(&mut rand, mode, form, size, 5);
        let mut coded = case.by_number();
        damage::swept(&mut rand, &mut coded);
        let found = compare::swept(&case, self.port.as_mut(), line);
        self.note(found);
        damage::swept(&mut rand, &mut case);
        for case in [case, coded] {
            let found = compare::damaged_sweep(&case, self.port.as_mut(), line);
            self.note(found);
        }
    }

    /// A move and a sweep of three to eight by houd, good but for that and then damaged: 1 comes before 15, and 15 before all others.
    fn houd_of_more(&mut self, form: Form, number: u64, line: &mut Line) {
        let mut rand = self.rand(Mode::Houd, form, 3, number);
        let size = Size::mixed(&mut rand);
        let members = rand.range(3, 8);
        let mut case = make::single_of(&mut rand, Mode::Houd, form, size, members);
        let found = compare::single_of_more(&case, self.port.as_mut(), line);
        self.note(found);
        damage::single(&mut rand, &mut case);
        let found = compare::damaged_single(&case, self.port.as_mut(), line);
        self.note(found);
        let mut case = make::swept_of(&mut rand, Mode::Houd, form, size, members);
        let found = compare::swept_of_more(&case, self.port.as_mut(), line);
        self.note(found);
        damage::swept(&mut rand, &mut case);
        let found = compare::damaged_sweep(&case, self.port.as_mut(), line);
        self.note(found);
    }

    /// A move on bytes, and rows and columns by themselves, each damaged.
    fn packed(&mut self, mode: Mode, form: Form, number: u64, line: &mut Line) {
        let mut rand = self.rand(mode, form, 4, number);
        let size = Size::mixed(&mut rand);
        let mut case = make::single(&mut rand, mode, form, size);
        if case.group.len() == 5 && Coding::Numbers.numbers(mode, form) && rand.once_in(2) {
            case = case.by_number();
        }
        let mut packed = case.packed().expect("a good call has rows");
        let mut layout = packed.layout();
        damage::packed(&mut rand, &mut packed);
        let found = compare::damaged_packed(&packed, self.port.as_mut(), line);
        self.note(found);
        damage::layout(&mut rand, &mut layout);
        let found = compare::damaged_layout(&layout, self.port.as_mut(), line);
        self.note(found);
    }

    /// A move and a sweep among another team's systems, and then damaged.
    fn teams(&mut self, mode: Mode, form: Form, number: u64, line: &mut Line) {
        let mut rand = self.rand(mode, form, 5, number);
        let size = Size::mixed(&mut rand);
        let case = make::single(&mut rand, mode, form, size);
        let found = compare::shared_single(&case, &mut rand, self.port.as_mut(), line);
        self.note(found);
        let mut among = teams::around_single(&mut rand, &case).single(&case);
        damage::single(&mut rand, &mut among);
        let found = compare::damaged_single(&among, self.port.as_mut(), line);
        self.note(found);
        let case = make::swept(&mut rand, mode, form, size);
        let found = compare::shared_swept(&case, &mut rand, self.port.as_mut(), line);
        self.note(found);
        let mut among = teams::around_swept(&mut rand, &case).swept(&case);
        damage::swept(&mut rand, &mut among);
        let found = compare::damaged_sweep(&among, self.port.as_mut(), line);
        self.note(found);
    }

    /// A move as a vendor would send it, then changed, and damaged.
    fn vendor(&mut self, mode: Mode, form: Form, number: u64, line: &mut Line) {
        let mut rand = self.rand(mode, form, 6, number);
        let size = Size::mixed(&mut rand);
        let pair = vendor::make::moved(&mut rand, mode, form, size, self.port.as_mut());
        let found = compare::own_move(&pair, self.port.as_mut(), line);
        self.note(found);
        // trying every permutation on many components takes its time
        let large = matches!(size, Size::Middle | Size::Full);
        for (what, change) in vendor::make::CHANGES {
            if large && !rand.once_in(4) {
                continue;
            }
            let mut pair = pair.clone();
            change(&mut rand, &mut pair);
            let found = compare::vendored(what, &pair, self.port.as_mut(), line);
            self.note(found);
            damage::vendored(&mut rand, &mut pair);
            let found = compare::vendored("damaged", &pair, self.port.as_mut(), line);
            self.note(found);
        }
    }

    /// A sweep by its tasks' steps, a move by its three, and then damaged.
    fn steps(&mut self, mode: Mode, form: Form, number: u64, line: &mut Line) {
        let mut rand = self.rand(mode, form, 7, number);
        let size = Size::mixed(&mut rand);
        let mut case = make::swept(&mut rand, mode, form, size);
        if rand.once_in(2) {
            case = teams::around_swept(&mut rand, &case).swept(&case);
        }
        let found = compare::swept_by_steps(&case, &mut rand, self.port.as_mut(), line);
        self.note(found);
        damage::swept(&mut rand, &mut case);
        let found = compare::damaged_test(&case, self.port.as_mut(), line);
        self.note(found);
        let case = make::single(&mut rand, mode, form, size);
        let found = compare::steps_of(&case, &mut rand, line);
        self.note(found);
        for which in Which::ALL {
            let mut task = Task::of(&case).drawn(&mut rand);
            damage::task(&mut rand, &mut task);
            let found = compare::damaged_step(&task, which, line);
            self.note(found);
        }
    }

    fn days(&mut self) -> days::Tally {
        let mut tally = days::Tally::default();
        for number in 0..self.cases.div_ceil(50) {
            let mut rand = Rand::of(&[self.seed, 6, number]);
            let found = days::run(&mut rand, self.port.as_mut(), &mut tally);
            self.note(found);
        }
        tally
    }

    fn mode_and_form(&mut self, mode: Mode, form: Form) -> Line {
        let mut line = Line::default();
        let with = |what: Alone| self.alone.is_none_or(|alone| alone == what);
        let (vendor, steps) = (mode.permutes() && with(Alone::Vendor), with(Alone::Steps));
        for number in 0..self.cases {
            if vendor {
                self.vendor(mode, form, number, &mut line);
            }
            if steps {
                self.steps(mode, form, number, &mut line);
            }
        }
        if self.alone.is_some() {
            return line;
        }
        exhaustive::each(mode, form, self.small(), |case| {
            let found = compare::small(&case, self.port.as_mut(), &mut line);
            self.note(found);
        });
        for number in 0..self.cases {
            self.single(mode, form, number, &mut line);
            self.sweep(mode, form, number, &mut line);
            self.packed(mode, form, number, &mut line);
            self.teams(mode, form, number, &mut line);
            if number % 2 == 0 && Coding::Numbers.numbers(mode, form) {
                self.of_five(mode, form, number, &mut line);
            }
            if number % 2 == 0 && mode == Mode::Houd && form != Form::Observe {
                self.houd_of_more(form, number, &mut line);
            }
        }
        line
    }

    /// How many differences there are.
    fn all(&mut self) -> usize {
        let mut differences = 0;
        for mode in Mode::ALL {
            for form in Form::ALL {
                let line = self.mode_and_form(mode, form);
                print(mode, form, &line);
                differences += line.differences;
            }
        }
        if self.alone.is_none() {
            let tally = self.days();
            print_days(&tally);
            differences += tally.differences;
        }
        differences
    }
}

fn print(mode: Mode, form: Form, line: &Line) {
    println!(
        "{:5} {:7} singles {:6} (all small: {:6}) sweeps {:6} | \
        Rust: labelled {:6} depth first {:6} acting sites {:6} | beside Wolff {:6} | odd N {:5} idle {:6} | \
        pinned {:6} released {:6} held {:6} | port {:6} | damaged {:6} refused {:?} | \
        by number {:5} not of five {:6} | as pair {:6} houd of more {:5} | \
        packed {:6} with own faults {:5} layouts {:?} | two teams {:6} | \
        vendor's {:?} behind the first {:6} | \
        by steps {:5} with {:6} tasks, each step {:6} damaged {:?} | totals kept {:6} handed over {:?} | differences {}",
        mode.name(),
        form.name(),
        line.singles,
        line.all_small,
        line.sweeps,
        line.union_find,
        line.depth_first,
        line.acting,
        line.wolff,
        line.odd,
        line.idle,
        line.pinned,
        line.released,
        line.held,
        line.port,
        line.damaged,
        &line.refused[1..],
        line.by_number,
        line.not_of_five,
        line.as_pair,
        line.houd_of_more,
        line.packed,
        line.packed_damaged,
        line.layouts,
        line.shared,
        line.vendor,
        line.vendor_behind,
        line.step_sweeps,
        line.step_tasks,
        line.steps,
        line.step_refused,
        line.kept,
        line.handed,
        line.differences,
    );
}

fn print_days(tally: &days::Tally) {
    println!(
        "days of {} calls {:4}, of two teams {:4} with {:6} good calls of the second | moved {:6} idle {:5} held {:5} \
        observed {:5} swept {:6} held tasks {:6} by number {:5} packed {:6} refused {:?} | differences {}",
        days::CALLS,
        tally.days,
        tally.shared,
        tally.of_other,
        tally.moved,
        tally.idle,
        tally.held,
        tally.observed,
        tally.swept,
        tally.held_tasks,
        tally.by_number,
        tally.packed,
        &tally.refused[1..],
        tally.differences,
    );
}

/// What there is to compare.
fn say_sides(linked: bool) {
    match published_patched::PRESENT {
        true => println!("published Rust: with lent choices"),
        false => println!("published Rust: left out, it was not found when this was built"),
    }
    match linked {
        true => println!("port: linked"),
        false => println!("port: left out, its static library was not found when this was built"),
    }
}

fn main() -> ExitCode {
    let words: Vec<String> = std::env::args().skip(1).collect();
    let number = |at: usize, default: u64| words.get(at).map_or(Ok(default), |word| word.parse());
    let alone = match words.get(2).map(String::as_str) {
        Some("vendor") => Some(Alone::Vendor),
        Some("steps") => Some(Alone::Steps),
        _ => None,
    };
    let (Ok(cases), Ok(seed)) = (number(0, 2000), number(1, 1)) else {
        eprintln!("compare [cases] [seed] [vendor|steps]");
        return ExitCode::from(2);
    };
    let port = port::linked();
    say_sides(port.is_some());
    let mut run = Run {
        cases,
        seed,
        alone,
        port,
        smallest: None,
    };
    let differences = run.all();
    match run.smallest {
        None => {
            println!("no difference");
            ExitCode::SUCCESS
        }
        Some(found) => {
            println!("{differences} differences; the smallest:\n{}", found.text);
            ExitCode::FAILURE
        }
    }
}
