//! Totals (6/14): what keeping them takes beside metering the group's systems anew, where a known share of the sites moves.
use crate::{head, row, sizes, Bench};
use calls::{Answer, Form, MeterAnswer, Mode};
use std::hint::black_box;
use tsorvenk_runs::case::Single;
use tsorvenk_runs::model::Model;
use tsorvenk_runs::timing::pieces::{
    kept, piece, plain_energies, refused_kept, refused_meter, Share,
};
use tsorvenk_runs::timing::{median, refused_single};

impl Bench {
    /// A call less its tests, which are those of `refused`.
    fn less_tests(&mut self, case: &Single, refused: &Single) -> f64 {
        assert!(case.run(self.port.as_mut()) == case.run(&mut Model));
        let (all, answer) = self.step(case, 1);
        let (tests, refusal) = self.step(refused, 1);
        assert_eq!(answer, Answer::Moved);
        assert!(matches!(refusal, Answer::Refused(_)));
        all - tests
    }

    /// What the same call takes more where it keeps totals, tests aside.
    fn keeping_time(&mut self, case: &Single) -> f64 {
        let kept = kept(case);
        let refused = refused_kept(&kept);
        assert_eq!(refused.run(self.port.as_mut()).0, Answer::Refused(14));
        self.less_tests(&kept, &refused) - self.less_tests(case, &refused_single(case))
    }

    /// The group's systems metered by a plain loop, and by the port less its tests.
    fn metering_times(&mut self, case: &Single) -> (f64, f64) {
        let mut sum = 0;
        let run = |sum: &mut i64| *sum = plain_energies(black_box(case));
        let plain = median(self.repetitions, &mut sum, |_| {}, run);
        let (all, metered) = self.energy(case);
        let (tests, refusal) = self.energy(&refused_meter(case));
        assert!(matches!(metered, MeterAnswer::Energy(_)));
        assert_eq!(refusal, MeterAnswer::Refused(6));
        (plain, case.group.len() as f64 * (all - tests))
    }

    fn totals_cell(
        &mut self,
        mode: Mode,
        form: Form,
        d: usize,
        members: usize,
        share: Share,
    ) -> String {
        let case = piece(&mut self.rand, (mode, form), d, members, share);
        let keeping = self.keeping_time(&case);
        let (plain, metering) = self.metering_times(&case);
        self.cell(keeping, Some(plain), |_| {
            format!("; {:.2}", keeping / metering)
        })
    }

    fn totals_table(&mut self, form: Form, share: Share) {
        let title = format!(
            "Totals kept in {}, S = N, {} of the sites moves: what keeping takes / a plain loop that meters the group's systems; \
            behind it the ratio to the port's meter of them, less its tests",
            form.name(),
            share.name()
        );
        head(&title, "Mode", &["N = 2", "N = 4", "N = 8"]);
        for mode in Mode::ALL {
            for d in [2, 3] {
                let cells = sizes(mode, form)
                    .iter()
                    .map(|&members| self.totals_cell(mode, form, d, members, share));
                row(&format!("{}, D = {d}", mode.name()), cells.collect(), 3);
            }
        }
        self.ratios.print();
    }

    pub fn totals(&mut self) {
        self.totals_table(Form::Sw, Share::Quarter);
        self.totals_table(Form::Sw, Share::All);
        self.totals_table(Form::Grow, Share::Hundredth);
    }
}

/// The first system's sites that change are the share's.
#[test]
fn as_many_sites_move_as_are_said_to() {
    let mut rand = tsorvenk_runs::rand::Rand::new(1);
    for mode in Mode::ALL {
        for (d, share) in [2, 3].into_iter().flat_map(|d| Share::ALL.map(|s| (d, s))) {
            for &members in sizes(mode, Form::Sw) {
                let case = piece(&mut rand, (mode, Form::Sw), d, members, share);
                let (answer, after) = case.run(&mut Model);
                assert_eq!(answer, Answer::Moved);
                let n = case.panel.n;
                let changed = |i: usize| after.spins[i] != case.lent.spins[i];
                assert!((0..n).all(|site| changed(site) == share.has(mode, d, site)));
            }
        }
    }
}
