//! Pinned sites (9/14): moves of a panel with 10 % of its sites pinned beside the same moves without pins.
use crate::{head, row, Bench};
use calls::{Answer, Form, Mode};
use tsorvenk_runs::case::Single;
use tsorvenk_runs::model::Model;
use tsorvenk_runs::timing::{self, pinned, N};

const PERCENT: usize = 10;

impl Bench {
    /// A call with this answer, which is first compared with the model.
    fn answered(&mut self, case: &Single, expected: Answer) -> f64 {
        assert!(case.run(self.port.as_mut()) == case.run(&mut Model));
        let (time, answer) = self.step(case, 1);
        assert_eq!(answer, expected);
        time
    }

    /// With pins / without; a one-cluster form starts from a site that is held, or from one that is not.
    fn pinned_cell(&mut self, case: &Single, held: bool) -> String {
        let one_cluster = case.panel.form.one_cluster();
        if held && !one_cluster {
            return "never held".to_string();
        }
        let seeded = match one_cluster {
            true => pinned::seeded(case, held),
            false => Some(case.clone()),
        };
        let Some(with) = seeded else {
            return "no such site".to_string();
        };
        let mut without = with.clone();
        without.panel.pins.fill(0);
        let expected = if held { Answer::Held } else { Answer::Moved };
        let with = self.answered(&with, expected);
        let without = self.answered(&without, Answer::Moved);
        self.cell(with, Some(without), |_| String::new())
    }

    pub fn pins(&mut self) {
        let title = format!(
            "{PERCENT} % of the sites pinned, n = {N}, N = 2, S = 2: whole call / the same without pins. In Wolff and grow from a site that is not \
            held, and from one that is"
        );
        head(&title, "Mode and form", &["moved", "held"]);
        for mode in Mode::ALL {
            for form in [Form::Sw, Form::Wolff, Form::Grow] {
                for d in [2, 3] {
                    let mut panel = timing::panel(&mut self.rand, mode, form, d, 2);
                    panel.pins = pinned::pins(&mut self.rand, N, PERCENT);
                    let case = timing::single(&mut self.rand, panel, 2);
                    let cells = [false, true].map(|held| self.pinned_cell(&case, held));
                    let name = format!("{} {}, D = {d}", mode.name(), form.name());
                    row(&name, cells.into(), 2);
                }
            }
        }
        self.ratios.print();
    }
}
