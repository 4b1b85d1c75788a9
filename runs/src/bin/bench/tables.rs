//! The test of neighbour tables by itself, beside plain loops in one sense and in both, and its share of a small panel's call.
use crate::{head, row, Bench};
use calls::{Answer, Form, Mode};
use std::hint::black_box;
use tsorvenk_runs::case::{Panel, Single};
use tsorvenk_runs::timing::{self, batched, N};

/// Forward leads to a site, and backward from there to where it began.
#[inline(never)]
fn one_sense(n: usize, d: usize, fwd: &[u32], bwd: &[u32]) -> bool {
    (0..n).all(|i| {
        (0..d).all(|e| {
            let j = fwd[i * d + e] as usize;
            j < n && bwd[j * d + e] as usize == i
        })
    })
}

#[inline(never)]
fn both_senses(n: usize, d: usize, fwd: &[u32], bwd: &[u32]) -> bool {
    one_sense(n, d, fwd, bwd) && one_sense(n, d, bwd, fwd)
}

/// So many calls are timed together that they have 16,384 sites.
fn batch(n: usize) -> usize {
    4 * N / n
}

impl Bench {
    /// The time of a call that is refused with this number.
    fn refused(&mut self, case: &Single, number: u8) -> f64 {
        let (time, answer) = self.step(case, batch(case.panel.n));
        assert_eq!(answer, Answer::Refused(number));
        time
    }

    /// A call refused for its group, of which the second system is none, less the same call refused for the first one's last spin: either looks at one
    /// row, and between them are the tables alone.
    fn tables_time(&mut self, case: &Single) -> f64 {
        let mut grouped = case.clone();
        grouped.group = vec![0, case.panel.s as u32];
        let mut unspun = grouped.clone();
        unspun.lent.spins[case.panel.n - 1] = 0;
        self.refused(&grouped, 5) - self.refused(&unspun, 3)
    }

    fn plain_time(&self, test: fn(usize, usize, &[u32], &[u32]) -> bool, panel: &Panel) -> f64 {
        let mut good = false;
        let run = |good: &mut bool| {
            let panel = black_box(panel);
            *good = test(panel.n, panel.d, &panel.fwd, &panel.bwd);
        };
        let time = batched(
            self.repetitions,
            batch(panel.n),
            &mut good,
            |good| *good = false,
            run,
        );
        assert!(good);
        time
    }

    fn tables_row(&mut self, n: usize, d: usize) {
        let panel = timing::panel_of(&mut self.rand, Mode::Perm, Form::Observe, n, d, 2);
        let case = timing::single(&mut self.rand, panel, 2);
        let port = self.tables_time(&case);
        let both = self.plain_time(both_senses, &case.panel);
        let one = self.plain_time(one_sense, &case.panel);
        let cells = vec![
            format!("{port:.2}"),
            format!("{both:.2}"),
            format!("{one:.2}"),
            format!("**{:.2}**", port / both),
        ];
        row(&format!("n = {n}, D = {d}"), cells, 4);
    }

    /// The whole call, and the time of the tables' test in it.
    fn call_cell(&mut self, mode: Mode, n: usize) -> String {
        let panel = timing::panel_of(&mut self.rand, mode, Form::Sw, n, 2, 2);
        let case = timing::single(&mut self.rand, panel, 2);
        let (call, answer) = self.step(&case, batch(n));
        assert_eq!(answer, Answer::Moved);
        let tables = self.tables_time(&case);
        format!("{call:.2}; {tables:.2}, {:.0} %", 100.0 * tables / call)
    }

    pub fn tables(&mut self) {
        let columns = [
            "port, one sense",
            "plain, both senses",
            "plain, one sense",
            "port / both",
        ];
        head("The tables' test", "Tables", &columns);
        for n in [64, N] {
            (1..=4).for_each(|d| self.tables_row(n, d));
        }
        let sizes = [16, 64, 256];
        head(
            "Whole calls in SW, N = 2, D = 2; the tables' test in them",
            "Mode",
            &sizes
                .map(|n| format!("n = {n}"))
                .each_ref()
                .map(String::as_str),
        );
        for mode in Mode::ALL {
            let cells = sizes.map(|n| self.call_cell(mode, n));
            row(mode.name(), cells.into(), 3);
        }
    }
}
