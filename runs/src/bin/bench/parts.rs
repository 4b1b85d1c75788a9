//! The test of all spins, and the meter.
use crate::Bench;
use calls::{Form, MeterAnswer, Mode, Port, SweepAnswer};
use std::hint::black_box;
use tsorvenk_runs::case::Single;
use tsorvenk_runs::model::Model;
use tsorvenk_runs::timing::{self, median, plain_energy};

impl Bench {
    pub fn energy(&mut self, case: &Single) -> (f64, MeterAnswer) {
        let port = &mut self.port;
        let run = |answer: &mut MeterAnswer| *answer = port.energy(black_box(case).meter(0));
        let mut answer = MeterAnswer::Refused(0);
        let time = median(self.repetitions, &mut answer, |_| {}, run);
        (time, answer)
    }

    /// A sweep with the very last spin byte faulty, since a sweep names every system: sizes, lengths and the spin test.
    pub fn spin_test_line(&mut self) {
        let mut case = timing::swept(&mut self.rand, Mode::Perm, Form::Observe, 2, 2);
        case.order.sort_unstable();
        *case.lent.spins.last_mut().unwrap() = 0;
        let (all, answer) = self.sweep(&case, self.repetitions);
        assert_eq!(answer, SweepAnswer::Refused(3));
        let mut good = true;
        let run = |good: &mut bool| {
            let spins = black_box(&case.lent.spins);
            *good = spins.iter().all(|&s| s == 1 || s == -1)
        };
        let plain = median(self.repetitions, &mut good, |_| {}, run);
        assert!(!good);
        let name = "spin test, 64 systems";
        println!(
            "{name:32} port {all:9.2} | iter().all {plain:9.2} ({:5.2})",
            all / plain
        );
    }

    pub fn meter_line(&mut self) {
        let panel = timing::panel(&mut self.rand, Mode::Jorg, Form::Observe, 2, 2);
        let case = timing::single(&mut self.rand, panel, 2);
        let (all, answer) = self.energy(&case);
        let mut faulty = case.clone();
        *faulty.panel.couplings.last_mut().unwrap() = 1_000_001;
        let (tests, refusal) = self.energy(&faulty);
        assert_eq!(refusal, MeterAnswer::Refused(6));
        let mut energy = 0;
        let run =
            |energy: &mut i64| *energy = plain_energy(&black_box(&case).panel, &case.lent.spins);
        let plain = median(self.repetitions, &mut energy, |_| {}, run);
        assert_eq!(answer, MeterAnswer::Energy(energy));
        let run = |answer: &mut MeterAnswer| *answer = Model.energy(black_box(&case).meter(0));
        let mut tested = MeterAnswer::Refused(0);
        let same_tests = median(self.repetitions, &mut tested, |_| {}, run);
        assert_eq!(answer, tested);
        let sum = all - tests;
        println!(
            "{:32} port {all:9.2} = tests {tests:9.2} + sum {sum:9.2} | plain loop {plain:9.2} (sum {:5.2}) | with the same tests {same_tests:9.2} ({:5.2})",
            "meter, 2 systems",
            sum / plain,
            all / same_tests,
        );
    }
}
