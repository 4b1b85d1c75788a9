//! Two teams on one panel (12/14): calls of a team that has half of the systems beside the same calls of one that has the panel for itself.
use crate::{head, row, sizes, Bench};
use calls::{Form, Mode};
use std::hint::black_box;
use tsorvenk_runs::case::{Lent, Single, Swept};
use tsorvenk_runs::model::Model;
use tsorvenk_runs::teams::Shared;
use tsorvenk_runs::timing::{self, in_turn, microseconds, N};

const D: usize = 2;
const HALF: usize = 32;

impl Bench {
    /// The first systems are the caller's, and as many behind them the other team's, with rubbish in their rows.
    fn shared(&mut self) -> Shared {
        let owners = (0..2 * HALF).map(|system| u8::from(system >= HALF));
        Shared::of(&mut self.rand, N, 0, owners.collect())
    }

    /// Both sides in turn, each on its spins as they were; they are first compared with the model.
    fn turns<C, A: PartialEq>(
        &mut self,
        sides: [(&C, &Lent); 2],
        run: impl Fn(&C, &mut dyn calls::Port, &mut Lent) -> A,
    ) -> [f64; 2] {
        let port = self.port.as_mut();
        let mut lents = sides.map(|(_, lent)| lent.clone());
        for (case, lent) in sides {
            let [mut one, mut other] = [lent.clone(), lent.clone()];
            assert!(run(case, port, &mut one) == run(case, &mut Model, &mut other));
            assert!(one == other);
        }
        in_turn(self.repetitions, |side| {
            let (case, before) = sides[side];
            let lent = &mut lents[side];
            lent.spins.copy_from_slice(&before.spins);
            microseconds(|| {
                black_box(run(black_box(case), port, lent));
            })
        })
    }

    fn ratio(&mut self, [shared, alone]: [f64; 2]) -> String {
        self.cell(shared, Some(alone), |_| String::new())
    }

    fn shared_move(&mut self, mode: Mode, form: Form, members: usize) -> String {
        let panel = timing::panel(&mut self.rand, mode, form, D, 2 * HALF);
        let alone = timing::single(&mut self.rand, panel, members);
        let mut shared = alone.clone();
        shared.panel.owners[HALF..].fill(1);
        shared.lent.spins[HALF * N..].fill(0);
        let sides = [(&shared, &shared.lent), (&alone, &alone.lent)];
        let times = self.turns(sides, |case: &Single, port, lent| {
            port.step(case.step(lent))
        });
        self.ratio(times)
    }

    fn shared_sweep(&mut self, mode: Mode, form: Form, members: usize) -> String {
        let panel = timing::panel(&mut self.rand, mode, form, D, HALF);
        let alone = timing::swept_on(&mut self.rand, panel, members);
        let shared = self.shared().swept(&alone);
        let sides = [(&shared, &shared.lent), (&alone, &alone.lent)];
        let times = self.turns(sides, |case: &Swept, port, lent| {
            port.sweep(case.sweep(lent))
        });
        self.ratio(times)
    }

    fn shared_meter_line(&mut self) {
        let panel = timing::panel(&mut self.rand, Mode::Jorg, Form::Observe, D, HALF);
        let alone = timing::single(&mut self.rand, panel, 2);
        let shared = self.shared().single(&alone);
        let sides = [(&shared, &shared.lent), (&alone, &alone.lent)];
        let times = self.turns(sides, |case: &Single, port, _| port.energy(case.meter(0)));
        let ratio = self.ratio(times);
        println!(
            "\nThe meter, {HALF} systems of {} / {HALF} alone: {ratio}",
            2 * HALF
        );
    }

    pub fn teams(&mut self) {
        let title = format!(
            "Two teams, n = {N}, D = {D}: a move in a panel of {} systems of which half are foreign / where none is; a sweep \
            over {HALF} systems beside as many foreign ones / where these are alone",
            2 * HALF
        );
        head(
            &title,
            "Mode and form",
            &["move, N = 2", "move, largest N", "sweep, N = 2"],
        );
        for mode in Mode::ALL {
            for form in Form::ALL {
                let most = *sizes(mode, form).last().unwrap();
                let cells = vec![
                    self.shared_move(mode, form, 2),
                    self.shared_move(mode, form, most),
                    self.shared_sweep(mode, form, 2),
                ];
                row(&format!("{} {}", mode.name(), form.name()), cells, 3);
            }
        }
        self.shared_meter_line();
        self.ratios.print();
    }
}
