//! Days that keep totals (6/14): a thousand calls one after the other on one panel's spins and totals, moves and sweeps of every mode and form,
//! observations and refused calls among them, each with pins of its own. After each the totals stand beside the meter. On every second day the panel has
//! two teams (12/14), whose calls are mixed: each call finds rubbish in place of the other team's rows and totals, and must leave it.
use crate::case::{Lent, Panel, Single, Swept};
use crate::compare::{differ, differ_lent, report, Found};
use crate::damage;
use crate::make::{self, Size};
use crate::model::{energies, Model};
use crate::rand::Rand;
use crate::teams::Shared;
use calls::{Answer, Coding, Form, Keeps, Mode, Port, SweepAnswer};
use std::fmt::Debug;

pub const CALLS: usize = 1000;

/// How many calls of each kind there were.
#[derive(Default)]
pub struct Tally {
    pub days: usize,
    /// Of these, days of two teams, and the calls of team 1.
    pub shared: usize,
    pub of_other: usize,
    pub moved: usize,
    pub idle: usize,
    pub held: usize,
    pub observed: usize,
    pub swept: usize,
    /// Held tasks of sweeps.
    pub held_tasks: usize,
    /// Calls whose permutations are numbers, refused ones too.
    pub by_number: usize,
    /// Moves that are made on their group's bytes (11/14).
    pub packed: usize,
    /// By number.
    pub refused: [usize; 16],
    pub differences: usize,
}

/// A panel with the spins and totals that the last call left, those of both teams.
struct Day {
    panel: Panel,
    owners: Vec<u8>,
    lent: Lent,
    /// By how much each total is wrong, which no call changes: 0 on a day whose hand-over is accepted.
    off: Vec<i64>,
}

/// All team 0's, or two teams', each of which has eight systems at least and may move every group.
fn owners(rand: &mut Rand, two_teams: bool) -> Vec<u8> {
    if !two_teams {
        return vec![0; rand.pick(&[8, 9, 12, 16])];
    }
    let s = rand.pick(&[16, 17, 20, 24]);
    let order = rand.permutation(s);
    let owner = |at: usize| match at {
        0..8 => 0,
        8..16 => 1,
        _ => at as u8 % 2,
    };
    order.into_iter().map(owner).collect()
}

fn day(rand: &mut Rand, two_teams: bool) -> Day {
    let size = rand.pick(&[Size::Tiny, Size::Tiny, Size::Tiny, Size::Small]);
    let owners = owners(rand, two_teams);
    let s = owners.len();
    // of a mode that draws, so that it has couplings
    let mut panel = make::panel(rand, Mode::Jorg, Form::Sw, size, s);
    (panel.coding, panel.keeps) = (Coding::Rows, Keeps::Totals);
    let spins = make::spins(rand, panel.n, s);
    let right = rand.once_in(2);
    // a small panel's energies leave room for these
    let wrong = |_| rand.range(0, 20_000_000_000) as i64 - 10_000_000_000;
    let off: Vec<i64> = match right {
        true => vec![0; s],
        false => (0..s).map(wrong).collect(),
    };
    let metered = energies(&panel, &spins);
    let totals = metered.iter().zip(&off).map(|(e, off)| e + off).collect();
    let lent = Lent {
        spins,
        totals,
        ..Lent::default()
    };
    Day {
        panel,
        owners,
        lent,
        off,
    }
}

impl Day {
    /// Who calls next, with rubbish in place of what is the other team's.
    fn caller(&self, rand: &mut Rand) -> Shared {
        let team = rand.pick(&self.owners);
        Shared::of(rand, self.panel.n, team, self.owners.clone())
    }

    /// The panel of the caller's systems alone in some mode and form, with pins of its own, and the size of a group.
    fn any(&self, rand: &mut Rand, caller: &Shared) -> (Panel, usize) {
        let mut panel = self.panel.clone();
        panel.of_one_team(caller.places().len());
        panel.pins = make::pins(rand, panel.n);
        (panel.mode, panel.form) = (rand.pick(&Mode::ALL), rand.pick(&Form::ALL));
        let members = make::members(rand, panel.mode, panel.form);
        (panel, members)
    }

    /// The rows of these systems.
    fn spins(&self, places: &[usize]) -> Vec<i8> {
        let rows: Vec<&[i8]> = self.lent.spins.chunks(self.panel.n).collect();
        places
            .iter()
            .flat_map(|&place| rows[place])
            .copied()
            .collect()
    }

    fn totals(&self, places: &[usize]) -> Vec<i64> {
        places
            .iter()
            .map(|&place| self.lent.totals[place])
            .collect()
    }

    /// Whether a call's permutations, which are rows, become numbers: in half of those of five.
    fn coded(rand: &Rand, panel: &Panel, members: usize) -> bool {
        let takes = Coding::Numbers.numbers(panel.mode, panel.form);
        takes && members == 5 && rand.aside().once_in(2)
    }

    fn single(&self, rand: &mut Rand, caller: &Shared) -> Single {
        let (panel, members) = self.any(rand, caller);
        let spins = |_: &mut Rand| self.spins(caller.places());
        let mut case = make::single_on(rand, panel, members, spins);
        case.lent.totals = self.totals(caller.places());
        match Day::coded(rand, &case.panel, members) {
            true => case.by_number(),
            false => case,
        }
    }

    fn swept(&self, rand: &mut Rand, caller: &Shared) -> Swept {
        let (panel, members) = self.any(rand, caller);
        let fits = |t: &usize| panel.s % t == 0 && panel.s / t >= members;
        let shapes: Vec<usize> = (1..=panel.s).filter(fits).collect();
        let t = rand.pick(&shapes);
        let masks = (0..t).map(|_| u8::from(rand.once_in(4))).collect();
        let spins = |_: &mut Rand| self.spins(caller.places());
        let mut case = make::swept_on(rand, panel, members, masks, spins);
        case.lent.totals = self.totals(caller.places());
        match Day::coded(rand, &case.panel, members) {
            true => case.by_number(),
            false => case,
        }
    }

    /// Whether a call of this mode leaves the sum over its groups, and so over all systems. Houd of more than two only observes.
    fn keeps_sum(mode: Mode) -> bool {
        matches!(mode, Mode::Houd | Mode::Pair | Mode::Perm | Mode::Gperm)
    }

    /// Goes on from what a call left of its caller's systems, after a look at all totals.
    fn go_on(&mut self, text: &mut String, caller: &Shared, after: &Lent, sum_kept: bool) {
        let sum = |totals: &[i64]| totals.iter().sum::<i64>();
        let (n, before) = (self.panel.n, sum(&self.lent.totals));
        for (system, &place) in caller.places().iter().enumerate() {
            let row = &after.spins[system * n..][..n];
            self.lent.spins[place * n..][..n].copy_from_slice(row);
            self.lent.totals[place] = after.totals[system];
        }
        let metered = energies(&self.panel, &self.lent.spins);
        let wrong = |(total, energy): (&i64, &i64)| total - energy;
        let off: Vec<i64> = self.lent.totals.iter().zip(&metered).map(wrong).collect();
        differ(text, "totals less the meter", &self.off, &off);
        if sum_kept {
            let after = sum(&self.lent.totals);
            differ(text, "the sum of totals", before, after);
        }
    }

    /// The hand-over of a team's totals, beside rubbish in place of the other's.
    fn hand_over(&self, text: &mut String, caller: &Shared, side: &mut dyn Port) {
        let right = caller.places().iter().all(|&place| self.off[place] == 0);
        let mut panel = self.panel.clone();
        panel.of_one_team(caller.places().len());
        let lent = caller.lent(&Lent {
            spins: self.spins(caller.places()),
            totals: self.totals(caller.places()),
            ..Lent::default()
        });
        let answer = side.hand_over(caller.panel(&panel).hand_over(&lent));
        differ(text, "hand-over", if right { 0 } else { 14 }, answer);
    }
}

/// The answers of the model and of the port, where it is linked, which must agree, and what the port left.
fn both<C, A: PartialEq + Debug>(
    text: &mut String,
    case: &C,
    port: Option<&mut Box<dyn Port>>,
    run: impl Fn(&C, &mut dyn Port) -> (A, Lent),
) -> (A, Lent) {
    let (answer, lent) = run(case, &mut Model);
    let Some(port) = port else {
        return (answer, lent);
    };
    let (port_answer, port_lent) = run(case, port.as_mut());
    differ(text, "answer", &answer, &port_answer);
    differ_lent(text, &lent, &port_lent);
    (answer, port_lent)
}

/// A good call among what is the other team's, twice with other rubbish: it gives what it gives where the caller has the panel for itself, and the rubbish
/// stays. What it gives there comes back.
fn held<C: Debug, A: PartialEq + Debug + Copy>(
    text: &mut String,
    rand: &mut Rand,
    caller: &Shared,
    case: &C,
    mut port: Option<&mut Box<dyn Port>>,
    (among, run): (
        impl Fn(&Shared, &C) -> C,
        impl Fn(&C, &mut dyn Port) -> (A, Lent),
    ),
) -> (A, Lent) {
    let (answer, alone) = run(case, &mut Model);
    let again = caller.foreign().map(|_| caller.again(rand));
    for shared in [Some(caller), again.as_ref()].into_iter().flatten() {
        let shared_case = among(shared, case);
        let (shared_answer, lent) = both(text, &shared_case, port.as_deref_mut(), &run);
        differ(text, "answer", &answer, &shared_answer);
        differ_lent(text, &shared.lent(&alone), &lent);
    }
    (answer, alone)
}

/// A damaged call, which is made only where it is refused, since others may have other tables or couplings.
fn refused(
    day: &Day,
    rand: &mut Rand,
    mut port: Option<&mut Box<dyn Port>>,
    tally: &mut Tally,
) -> String {
    let (caller, mut text) = (day.caller(rand), String::new());
    let (number, numbers, told_case) = match rand.once_in(4) {
        true => {
            let mut case = caller.swept(&day.swept(rand, &caller));
            damage::swept(rand, &mut case);
            let SweepAnswer::Refused(number) = case.run(&mut Model).0 else {
                return text;
            };
            let (_, lent) = both(&mut text, &case, port.as_deref_mut(), Swept::run);
            differ_lent(&mut text, &case.lent, &lent);
            (number, case.panel.numbers(), format!("{case:?}"))
        }
        false => {
            let mut case = caller.single(&day.single(rand, &caller));
            damage::single(rand, &mut case);
            let Answer::Refused(number) = case.run(&mut Model).0 else {
                return text;
            };
            let (_, lent) = both(&mut text, &case, port, Single::run);
            differ_lent(&mut text, &case.lent, &lent);
            (number, case.panel.numbers(), format!("{case:?}"))
        }
    };
    tally.refused[usize::from(number)] += 1;
    tally.by_number += usize::from(numbers);
    told("a refused call of a day", &told_case, text)
}

/// A third of the moves are made on their group's bytes.
fn single(
    day: &mut Day,
    rand: &mut Rand,
    port: Option<&mut Box<dyn Port>>,
    tally: &mut Tally,
) -> String {
    let (caller, mut text) = (day.caller(rand), String::new());
    let case = day.single(rand, &caller);
    let packed = rand.aside().once_in(3);
    tally.by_number += usize::from(case.panel.numbers());
    tally.packed += usize::from(packed);
    let run = if packed {
        Single::run_packed
    } else {
        Single::run
    };
    let how = (Shared::single, run);
    let (answer, after) = held(&mut text, rand, &caller, &case, port, how);
    match answer {
        Answer::Refused(number) => text += &format!("  a good call is refused: {number}\n"),
        _ if case.panel.form == Form::Observe => tally.observed += 1,
        Answer::Moved => tally.moved += 1,
        Answer::Idle => tally.idle += 1,
        Answer::Held => tally.held += 1,
    }
    tally.of_other += caller.team();
    day.go_on(&mut text, &caller, &after, Day::keeps_sum(case.panel.mode));
    told("a move of a day", &case, text)
}

fn swept(
    day: &mut Day,
    rand: &mut Rand,
    port: Option<&mut Box<dyn Port>>,
    tally: &mut Tally,
) -> String {
    let (caller, mut text) = (day.caller(rand), String::new());
    let case = day.swept(rand, &caller);
    tally.by_number += usize::from(case.panel.numbers());
    let how = (Shared::swept, Swept::run);
    let (answer, after) = held(&mut text, rand, &caller, &case, port, how);
    match answer {
        SweepAnswer::Refused(number) => text += &format!("  a good call is refused: {number}\n"),
        SweepAnswer::Swept { held, .. } => {
            tally.swept += 1;
            tally.held_tasks += held as usize;
        }
    }
    tally.of_other += caller.team();
    day.go_on(&mut text, &caller, &after, Day::keeps_sum(case.panel.mode));
    told("a sweep of a day", &case, text)
}

fn told(heading: &str, case: &impl Debug, text: String) -> String {
    match text.is_empty() {
        true => text,
        false => report(heading, case, &text),
    }
}

fn handed_over(day: &Day, rand: &mut Rand, port: Option<&mut Box<dyn Port>>) -> String {
    let (caller, mut text) = (day.caller(rand), String::new());
    day.hand_over(&mut text, &caller, &mut Model);
    if let Some(port) = port {
        day.hand_over(&mut text, &caller, port.as_mut());
    }
    text
}

/// A whole day, on which one call of three is damaged; it ends at the first difference.
pub fn run(
    rand: &mut Rand,
    mut port: Option<&mut Box<dyn Port>>,
    tally: &mut Tally,
) -> Option<Found> {
    let two_teams = tally.days % 2 == 1;
    let (mut day, mut text) = (day(rand, two_teams), String::new());
    tally.days += 1;
    tally.shared += usize::from(two_teams);
    for _ in 0..CALLS {
        if rand.once_in(100) {
            text += &handed_over(&day, rand, port.as_deref_mut());
        }
        text += &match (rand.once_in(3), rand.once_in(4)) {
            (true, _) => refused(&day, rand, port.as_deref_mut(), tally),
            (_, true) => swept(&mut day, rand, port.as_deref_mut(), tally),
            _ => single(&mut day, rand, port.as_deref_mut(), tally),
        };
        if !text.is_empty() {
            tally.differences += 1;
            let weight = day.panel.n * day.panel.s;
            return Some(Found { weight, text });
        }
    }
    None
}
