//! A vendor's moves checked (13/14) beside an observation of the same group.
use crate::{head, row, Bench};
use calls::{Answer, Form, Mode, VendorAnswer};
use std::hint::black_box;
use tsorvenk_runs::case::Single;
use tsorvenk_runs::model::Model;
use tsorvenk_runs::timing::{self, in_turn, microseconds, N};
use tsorvenk_runs::vendor::Vendored;

const D: usize = 2;
const SITES: [usize; 3] = [64, 1024, N];

impl Bench {
    /// A pair that an SW move made, and the observation of its spins before; both are first compared with the model.
    fn vendor_pair(&mut self, mode: Mode, members: usize, n: usize) -> (Vendored, Single) {
        let panel = timing::panel_of(&mut self.rand, mode, Form::Sw, n, D, members);
        let case = timing::single(&mut self.rand, panel, members);
        let (answer, after) = case.run(&mut Model);
        assert_eq!(answer, Answer::Moved);
        let pair = Vendored::of(&case, &after);
        let seen = pair.observation();
        let port = self.port.as_mut();
        assert!(pair.by_side(port) == Some(pair.by_model()));
        assert!(seen.run(port) == seen.run(&mut Model));
        (pair, seen)
    }

    /// So many calls are timed together that they have 16,384 sites.
    fn vendor_cell(&mut self, mode: Mode, members: usize, n: usize) -> String {
        let (pair, seen) = self.vendor_pair(mode, members, n);
        let (mut rows, mut lent) = (pair.rows.clone(), seen.lent.clone());
        let (port, batch) = (self.port.as_mut(), 4 * N / n);
        let [check, observe] = in_turn(self.repetitions, |side| {
            let time = microseconds(|| {
                (0..batch).for_each(|_| match side {
                    0 => {
                        let answer = port.check_vendor(black_box(&pair).call(&mut rows));
                        assert_eq!(answer, VendorAnswer::Accepted);
                    }
                    _ => {
                        let answer = port.step(black_box(&seen).step(&mut lent));
                        assert_eq!(answer, Answer::Moved);
                    }
                })
            });
            time / batch as f64
        });
        self.cell(check, Some(observe), |_| String::new())
    }

    pub fn vendor(&mut self) {
        let title = format!(
            "A vendor's moves, D = {D}: the check of a pair that an SW move made, and that is accepted / an observation of the same group, S = N, in turn"
        );
        head(
            &title,
            "Mode and group",
            &SITES
                .map(|n| format!("n = {n}"))
                .each_ref()
                .map(String::as_str),
        );
        for mode in [Mode::Perm, Mode::Gperm] {
            for members in [2, 3, 5, 8] {
                let cells = SITES.map(|n| self.vendor_cell(mode, members, n));
                row(&format!("{}, N = {members}", mode.name()), cells.into(), 3);
            }
        }
        self.ratios.print();
    }
}
