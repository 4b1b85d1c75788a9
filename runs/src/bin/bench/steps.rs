//! Tasks in any order (14/14): a task's three steps beside the same task as one call, and a sweep's tasks on two threads beside one.
use crate::{head, row, sizes, Bench};
use calls::{Answer, Form, Mode};
use std::hint::black_box;
use tsorvenk_runs::case::{Lent, Single};
use tsorvenk_runs::model::Model;
use tsorvenk_runs::port;
use tsorvenk_runs::steps::{Steps, Task, Which};
use tsorvenk_runs::timing::pieces::{piece, Share};
use tsorvenk_runs::timing::{self, in_turn, microseconds, refused_single, N};

const D: usize = 2;
const WHAT: &str = "each step and the same task as one call, in brackets what of it is tests; whole steps / whole call; both less their tests";
const COLUMNS: [&str; 7] = [
    "N",
    "label",
    "choose",
    "write",
    "one call",
    "whole",
    "less tests",
];

/// The sizes of groups that are measured.
fn least_and_most(mode: Mode, form: Form) -> Vec<usize> {
    let mut of = vec![2, *sizes(mode, form).last().unwrap()];
    of.dedup();
    of
}

/// A step refused by the last of its tests that reads much, so that its time is that of the tests.
fn refused_step(task: &Task, which: Which) -> Task {
    let mut task = task.clone();
    let (form, n) = (task.panel.form, task.panel.n);
    match which {
        Which::Label => unreachable!("it is refused as the move is"),
        Which::Choose if form.one_cluster() => task.seed = n,
        Which::Choose if form == Form::Sw => match task.panel.mode {
            Mode::Cmr => *task.lent.grey_labels.last_mut().unwrap() = n as u32,
            _ => *task.lent.labels.last_mut().unwrap() = n as u32,
        },
        // what it reads of an observation are rows and pins
        Which::Choose => *task.panel.pins.last_mut().unwrap() = 2,
        Which::Write if form == Form::Grow => *task.lent.member_sites.last_mut().unwrap() = 2,
        // rows come before the columns, and of eight any byte is a column
        Which::Write if task.members == 8 => *task.lent.spins.last_mut().unwrap() = 0,
        Which::Write => *task.lent.columns.last_mut().unwrap() = 0xff,
    }
    task
}

/// A move as one task, and with the buffers of each of its steps what the step before left.
struct Timed {
    case: Single,
    tasks: [Task; 3],
    refused: [Task; 3],
    refused_move: Single,
}

impl Timed {
    /// Steps and move are first compared with the model.
    fn of(case: &Single, port: &mut Box<dyn calls::Port>, steps: &mut dyn Steps) -> Timed {
        let (answer, lent) = case.run(&mut Model);
        assert!((answer, &lent) == (case.run(port.as_mut()).0, &case.run(port.as_mut()).1));
        let task = Task::of(case);
        let (said, labelled) = task.run(Which::Label, steps);
        let (_, chosen) = labelled.run(Which::Choose, steps);
        let (_, mut written) = chosen.run(Which::Write, steps);
        written.lent.columns = Task::own(case, &lent).columns;
        assert!(said == answer && written.lent == Task::own(case, &lent));
        let refused_move = refused_single(case);
        let refused = [
            match refused_move.group == case.group {
                true => Task::of(&refused_move),
                // the move names a system twice; a step has nothing of the kind, and its tests end with the pins
                false => refused_step(&task, Which::Choose),
            },
            refused_step(&labelled, Which::Choose),
            refused_step(&chosen, Which::Write),
        ];
        Timed {
            case: case.clone(),
            tasks: [task, labelled, chosen],
            refused,
            refused_move,
        }
    }
}

/// The times of a task as one call and as steps, each with what of it is tests.
struct Times {
    move_all: f64,
    move_tests: f64,
    steps: [f64; 3],
    tests: [f64; 3],
}

/// A step made so often, with nothing made anew but what a move would change.
fn made(task: &Task, which: Which, side: &mut dyn Steps, lent: &mut Lent, blue: &mut [u8]) -> u8 {
    match which {
        Which::Label => match side.label(black_box(task).label(lent, blue)) {
            Answer::Refused(number) => number,
            _ => 0,
        },
        Which::Choose => side.choose(black_box(task).choose(&mut lent.columns)),
        Which::Write => side.write(black_box(task).write(&mut lent.spins, &mut lent.totals)),
    }
}

impl Bench {
    fn step_times(&mut self, case: &Single) -> Times {
        let mut steps = port::steps().unwrap_or_else(|| Box::new(Model));
        let timed = Timed::of(case, &mut self.port, steps.as_mut());
        let batch = N / case.panel.n;
        let mut lent = case.lent.clone();
        let (tasks, refused) = (&timed.tasks, &timed.refused);
        let mut areas = tasks
            .each_ref()
            .map(|task| (task.lent.clone(), task.blue.clone()));
        let times: [f64; 8] = in_turn(self.repetitions, |side| {
            let time = microseconds(|| {
                for _ in 0..batch {
                    match side {
                        0 | 1 => {
                            let case = [&timed.case, &timed.refused_move][side];
                            lent.spins.copy_from_slice(&case.lent.spins);
                            let answer = self.port.step(black_box(case).step(&mut lent));
                            assert_eq!(matches!(answer, Answer::Refused(_)), side == 1);
                        }
                        _ => {
                            let (at, bad) = ((side - 2) % 3, side >= 5);
                            let task = if bad { &refused[at] } else { &tasks[at] };
                            let (lent, blue) = &mut areas[at];
                            if at == 2 {
                                lent.spins.copy_from_slice(&task.lent.spins);
                            }
                            let number = made(task, Which::ALL[at], steps.as_mut(), lent, blue);
                            assert_eq!(number != 0, bad);
                        }
                    }
                }
            });
            time / batch as f64
        });
        let [move_all, move_tests, a, b, c, x, y, z] = times;
        Times {
            move_all,
            move_tests,
            steps: [a, b, c],
            tests: [x, y, z],
        }
    }

    fn step_cells(&mut self, case: &Single) -> Vec<String> {
        let times = self.step_times(case);
        let (all, tests): (f64, f64) = (times.steps.iter().sum(), times.tests.iter().sum());
        let whole = format!(
            "{all:.1} / {:.1} = {:.2}",
            times.move_all,
            all / times.move_all
        );
        let part = |at: usize| format!("{:.1} ({:.1})", times.steps[at], times.tests[at]);
        let rest = self.cell(all - tests, Some(times.move_all - times.move_tests), |_| {
            String::new()
        });
        vec![
            case.group.len().to_string(),
            part(0),
            part(1),
            part(2),
            format!("{:.1} ({:.1})", times.move_all, times.move_tests),
            whole,
            rest,
        ]
    }

    /// Labelled forms on random spins; those that grow have clusters of a known size.
    fn labelled_steps(&mut self, n: usize) {
        let title = format!("A task's three steps, n = {n}, D = {D}, S = N: {WHAT}");
        head(&title, "Mode and form", &COLUMNS);
        for mode in Mode::ALL {
            for form in Form::LABELLED {
                for members in least_and_most(mode, form) {
                    let panel = timing::panel_of(&mut self.rand, mode, form, n, D, members);
                    let case = timing::single(&mut self.rand, panel, members);
                    let cells = self.step_cells(&case);
                    row(&format!("{} {}", mode.name(), form.name()), cells, 7);
                }
            }
        }
        self.ratios.print();
    }

    fn grown_steps(&mut self, share: Share, sites: usize) {
        let title = format!(
            "A task that grows a cluster of {sites} sites, n = {N}, D = {D}, S = N: {WHAT}"
        );
        head(&title, "Mode", &COLUMNS);
        for mode in Mode::ALL {
            for members in least_and_most(mode, Form::Grow) {
                let case = piece(&mut self.rand, (mode, Form::Grow), D, members, share);
                let cells = self.step_cells(&case);
                row(mode.name(), cells, 7);
            }
        }
        self.ratios.print();
    }

    pub fn steps(&mut self) {
        self.labelled_steps(N);
        self.labelled_steps(256);
        self.grown_steps(Share::Ten, 10);
        self.grown_steps(Share::Hundredth, 42);
    }

    /// 32 tasks of 4,096 sites, in pairs.
    pub fn threads(&mut self) {
        #[cfg(port)]
        threads::tables(self);
    }
}

#[cfg(port)]
mod threads {
    use super::*;
    use tsorvenk::{Sweep, Task, Written};
    use tsorvenk_runs::case::Swept;

    fn sweep<'a>(
        case: &'a Swept,
        mode: tsorvenk::Mode,
        form: tsorvenk::Form,
        lent: &'a mut Lent,
    ) -> Sweep<'a> {
        Sweep {
            mode,
            form,
            n: case.panel.n,
            d: case.panel.d,
            s: case.panel.s,
            t: case.t,
            r: case.r,
            members: case.members,
            fwd: &case.panel.fwd,
            bwd: &case.panel.bwd,
            couplings: &case.panel.couplings,
            order: &case.order,
            masks: &case.masks,
            temperatures: &case.temperatures,
            cuts: &case.choices.cuts,
            references: &case.references,
            seeds: &case.seeds,
            flips: &case.choices.flips,
            perms: &case.choices.perms,
            greys: &case.choices.greys,
            labels: &mut lent.labels,
            grey_labels: &mut lent.grey_labels,
            counts: &mut lent.counts,
            sizes: &mut lent.sizes,
            member_sites: &mut lent.member_sites,
            found: &mut lent.found,
            grey_found: &mut lent.grey_found,
            ..Default::default()
        }
    }

    fn three(task: Task<'_>) -> Written<'_> {
        task.label().unwrap().choose().unwrap().write().unwrap()
    }

    fn all_steps(tasks: Vec<Task<'_>>) -> Vec<Written<'_>> {
        tasks.into_iter().map(three).collect()
    }

    fn on_threads(mut tasks: Vec<Task<'_>>, threads: usize) -> Vec<Written<'_>> {
        if threads == 1 {
            return all_steps(tasks);
        }
        let rest = tasks.split_off(tasks.len() / 2);
        std::thread::scope(|scope| {
            let other = scope.spawn(|| all_steps(rest));
            let mut done = all_steps(tasks);
            done.extend(other.join().unwrap());
            done
        })
    }

    /// What was measured of one sweep: steps on one thread and on two, the one call, and the whole of test, split, steps and merge.
    #[derive(Default)]
    struct Runs {
        steps: [Vec<f64>; 2],
        whole: [Vec<f64>; 2],
        call: Vec<f64>,
    }

    fn form_of(form: Form) -> tsorvenk::Form {
        match form {
            Form::Sw => tsorvenk::Form::Sw,
            Form::Wolff => tsorvenk::Form::Wolff,
            Form::Observe => tsorvenk::Form::Observe,
            Form::Grow => tsorvenk::Form::Grow,
        }
    }

    fn in_pieces(case: &Swept, mode: tsorvenk::Mode, threads: usize, lent: &mut Lent) -> [f64; 2] {
        let (mut spins, mut steps) = (std::mem::take(&mut lent.spins), 0.0);
        let whole = microseconds(|| {
            let call = sweep(case, mode, form_of(case.panel.form), lent);
            let (tasks, merging) = call.test(&spins, &[]).unwrap().split();
            let mut done = Vec::new();
            steps = microseconds(|| done = on_threads(tasks, threads));
            merging.merge(done, &mut spins, &mut []).unwrap();
        });
        lent.spins = spins;
        [steps, whole]
    }

    /// The steps of as many sweeps' tasks as there are buffers: a thread that was just started shares its starter's core for a while, which one sweep is too
    /// short to outlast.
    fn together(case: &Swept, mode: tsorvenk::Mode, threads: usize, lents: &mut [Lent]) -> f64 {
        let mut tasks = Vec::new();
        for lent in lents.iter_mut() {
            let call = sweep(case, mode, form_of(case.panel.form), lent);
            tasks.extend(call.test(&case.lent.spins, &[]).unwrap().split().0);
        }
        microseconds(|| {
            black_box(on_threads(tasks, threads));
        })
    }

    /// Two threads over one, medians, for the tasks of 16 sweeps.
    fn of_sixteen(bench: &Bench, case: &Swept, mode: tsorvenk::Mode) -> String {
        let mut lents = vec![case.lent.clone(); 16];
        let mut times = [Vec::new(), Vec::new()];
        for _ in 0..bench.repetitions.div_ceil(4) {
            for threads in [1, 2] {
                times[threads - 1].push(together(case, mode, threads, &mut lents));
            }
        }
        let [one, two] = times.each_mut().map(|times| median_and_least(times)[0]);
        format!("{two:.0} / {one:.0} = {:.2}", two / one)
    }

    fn run(bench: &mut Bench, case: &Swept, mode: tsorvenk::Mode) -> Runs {
        let expected = case.run(&mut Model).1;
        let (mut runs, mut lent) = (Runs::default(), case.lent.clone());
        for _ in 0..bench.repetitions {
            for threads in [0, 1, 2] {
                lent.spins.copy_from_slice(&case.lent.spins);
                if threads == 0 {
                    runs.call.push(microseconds(|| {
                        bench.port.sweep(black_box(case).sweep(&mut lent));
                    }));
                } else {
                    let [steps, whole] = in_pieces(case, mode, threads, &mut lent);
                    runs.steps[threads - 1].push(steps);
                    runs.whole[threads - 1].push(whole);
                }
                assert!(lent == expected);
            }
        }
        runs
    }

    fn median_and_least(times: &mut [f64]) -> [f64; 2] {
        times.sort_by(f64::total_cmp);
        [times[times.len() / 2], times[0]]
    }

    pub fn tables(bench: &mut Bench) {
        let title = format!(
            "32 tasks of {N} sites, N = 2, D = {D}, by the crate's Sweep: their steps on two threads / on one, medians, and the least of each; \
            the steps of 16 such sweeps' tasks, medians; the sweep as one call, and test, split, steps and merge on one thread and on two, medians"
        );
        let columns = ["two / one", "the least", "of 16 sweeps", "one call", "on one", "on two"];
        head(&title, "Mode and form", &columns);
        for (mode, named) in Mode::ALL.into_iter().zip(tsorvenk::Mode::ALL) {
            for form in Form::ALL {
                let case = timing::swept(&mut bench.rand, mode, form, D, 2);
                let mut runs = run(bench, &case, named);
                let [one, two] = runs.steps.each_mut().map(|times| median_and_least(times));
                let [on_one, on_two] = runs
                    .whole
                    .each_mut()
                    .map(|times| median_and_least(times)[0]);
                let cells = vec![
                    bench.cell(two[0], Some(one[0]), |_| String::new()),
                    format!("{:.0} / {:.0} = {:.2}", two[1], one[1], two[1] / one[1]),
                    of_sixteen(bench, &case, named),
                    format!("{:.0}", median_and_least(&mut runs.call)[0]),
                    format!("{on_one:.0}"),
                    format!("{on_two:.0}"),
                ];
                row(&format!("{} {}", mode.name(), form.name()), cells, 6);
            }
        }
        bench.ratios.print();
    }
}
