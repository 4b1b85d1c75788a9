//! Single moves and sweeps.
use crate::Bench;
use calls::{Answer, Form, Mode, Sweep, SweepAnswer};
use published_as_is::Sweeper;
use published_patched::{Branch, Prepared};
use tsorvenk_runs::case::{Lent, Single, Swept};
use tsorvenk_runs::model::Model;
use tsorvenk_runs::timing::{self, batched, median, refused_single, refused_sweep};

/// The published code's times for a sweep: with a generator, with lent draws, and depth first. Of a form that grows the first two are depth first.
pub struct Rust {
    pub own: f64,
    pub lent: f64,
    pub depth: Option<f64>,
}

/// A whole call of the port, the part of it that is tests, and the Rust where it is there.
pub struct Times {
    pub all: f64,
    pub tests: f64,
    pub rust: Option<Rust>,
}

impl Times {
    pub fn moving(&self) -> f64 {
        self.all - self.tests
    }

    /// To the standard error, all that was measured; what is printed to the standard output are tables.
    pub fn tell(&self, name: &str) {
        let (all, moving) = (self.all, self.moving());
        let ratio = |rust: f64| format!("{rust:9.1} ({:5.2} {:5.2})", all / rust, moving / rust);
        let column = |time: Option<f64>| time.map_or(format!("{:>23}", "-"), ratio);
        let rust = self.rust.as_ref();
        eprintln!(
            "{name:24} port {all:9.1} = tests {:9.1} + move {moving:9.1} | Rust {} | lent {} | depth {}",
            self.tests,
            column(rust.map(|r| r.own)),
            column(rust.map(|r| r.lent)),
            column(rust.and_then(|r| r.depth)),
        );
    }
}

fn rust(repetitions: usize, batch: usize, case: &Sweep, spins: &[i8]) -> Rust {
    // one group of two in a one-cluster form starts from the port's seed in every run
    let pinned = case.form.one_cluster() && case.t == 1 && case.r == 2;
    let ready = |(sweeper, work): &mut (Sweeper, Vec<i8>)| {
        work.copy_from_slice(spins);
        if pinned {
            let reference = case.references.first().map_or(0, |&site| site as usize);
            sweeper.pin(reference, case.seeds[0] as usize);
        }
    };
    let time = |outputs| {
        let mut state = (Sweeper::new(case, outputs), spins.to_vec());
        batched(repetitions, batch, &mut state, ready, |(sweeper, work)| {
            sweeper.run(work)
        })
    };
    let grow = case.form == Form::Grow;
    let own = time(!grow);
    let depth = (case.form == Form::Wolff).then(|| time(false));
    let branch = match grow {
        true => Branch::DepthFirst,
        false => Branch::UnionFind,
    };
    let mut state = (Prepared::new(case, branch), spins.to_vec());
    let lent = batched(
        repetitions,
        batch,
        &mut state,
        |(_, work)| work.copy_from_slice(spins),
        |(prepared, work)| prepared.run(work, true),
    );
    Rust { own, lent, depth }
}

/// What a call moves is what it was before.
fn as_before(lent: &mut Lent, before: &Lent) {
    lent.spins.copy_from_slice(&before.spins);
    lent.totals.copy_from_slice(&before.totals);
}

impl Bench {
    pub fn step(&mut self, case: &Single, batch: usize) -> (f64, Answer) {
        let mut lent = case.lent.clone();
        let mut answer = Answer::Refused(0);
        let ready = |lent: &mut Lent| as_before(lent, &case.lent);
        let time = batched(self.repetitions, batch, &mut lent, ready, |lent| {
            answer = self.port.step(case.step(lent));
        });
        (time, answer)
    }

    pub fn sweep(&mut self, case: &Swept, repetitions: usize) -> (f64, SweepAnswer) {
        let mut lent = case.lent.clone();
        let mut answer = SweepAnswer::Refused(0);
        let ready = |lent: &mut Lent| as_before(lent, &case.lent);
        let time = median(repetitions, &mut lent, ready, |lent| {
            answer = self.port.sweep(case.sweep(lent));
        });
        (time, answer)
    }

    /// One move, which is first compared with the model; `batch` calls are timed together.
    pub fn single(&mut self, case: &Single, batch: usize) -> Times {
        assert!(case.run(self.port.as_mut()) == case.run(&mut Model));
        let (all, answer) = self.step(case, batch);
        assert_eq!(answer, Answer::Moved);
        let (tests, refusal) = self.step(&refused_single(case), batch);
        assert!(matches!(refusal, Answer::Refused(_)));
        let rust = published_as_is::PRESENT.then(|| {
            let mut lent = case.lent.clone();
            let temperature = [case.temperature];
            let sites = [case.reference, case.seed].map(|site| site as u32);
            let call = case.step(&mut lent).as_sweep(&temperature, &sites);
            rust(self.repetitions, batch, &call, &case.lent.spins)
        });
        Times { all, tests, rust }
    }

    pub fn single_cell(
        &mut self,
        mode: Mode,
        form: Form,
        d: usize,
        members: usize,
        s: usize,
    ) -> String {
        let panel = timing::panel(&mut self.rand, mode, form, d, s);
        let case = timing::single(&mut self.rand, panel, members);
        let times = self.single(&case, 1);
        times.tell(&format!(
            "{} {} D={d} N={members}",
            mode.name(),
            form.name()
        ));
        let (moving, all) = (times.moving(), times.all);
        self.cell(moving, times.rust.map(|r| r.own), |rust| {
            format!("; {:.2}", all / rust)
        })
    }

    fn sweep_times(&mut self, mode: Mode, form: Form, d: usize, members: usize) -> Times {
        let repetitions = self.repetitions.div_ceil(4);
        let case = timing::swept(&mut self.rand, mode, form, d, members);
        assert!(case.run(self.port.as_mut()) == case.run(&mut Model));
        let (all, answer) = self.sweep(&case, repetitions);
        assert!(matches!(answer, SweepAnswer::Swept { .. }));
        let (tests, refusal) = self.sweep(&refused_sweep(&case), repetitions);
        assert!(matches!(refusal, SweepAnswer::Refused(_)));
        let rust = published_as_is::PRESENT.then(|| {
            let mut lent = case.lent.clone();
            rust(repetitions, 1, &case.sweep(&mut lent), &case.lent.spins)
        });
        let times = Times { all, tests, rust };
        times.tell(&format!(
            "{} {} D={d} N={members}",
            mode.name(),
            form.name()
        ));
        times
    }

    pub fn sweep_cell(&mut self, mode: Mode, form: Form, d: usize, members: usize) -> String {
        let times = self.sweep_times(mode, form, d, members);
        self.cell(times.all, times.rust.map(|r| r.own), |_| String::new())
    }

    pub fn grown_sweep_cell(&mut self, mode: Mode, d: usize, members: usize) -> String {
        let times = self.sweep_times(mode, Form::Grow, d, members);
        let (moving, tests) = (times.moving(), times.tests);
        let lent = times.rust.as_ref().map_or(0.0, |r| r.lent);
        self.cell(moving, times.rust.map(|r| r.own), |_| {
            format!("; lent {:.2}; {tests:.0}", moving / lent)
        })
    }
}
