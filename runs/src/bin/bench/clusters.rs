//! The one-cluster forms where one cluster has a known share of the sites, and moves of small panels.
use crate::{head, row, Bench};
use calls::{Form, Mode};
use tsorvenk_runs::case::Single;
use tsorvenk_runs::timing::{self, N};

/// The sides of a patch, in two directions and in three. Patches lie side by side; what is left over belongs to none.
#[derive(Clone, Copy)]
pub struct Patches {
    pub share: &'static str,
    square: [usize; 2],
    cube: [usize; 3],
}

pub const PATCHES: [Patches; 3] = [
    Patches {
        share: "about 1 %",
        square: [8, 7],
        cube: [5, 4, 4],
    },
    Patches {
        share: "about 10 %",
        square: [21, 21],
        cube: [9, 8, 8],
    },
    Patches {
        share: "about 60 %",
        square: [64, 39],
        cube: [16, 16, 11],
    },
];

impl Patches {
    /// Inside a patch: its last sites along each direction keep it apart from the next one, unless it goes all around.
    fn inside(self, d: usize, site: usize) -> bool {
        let (side, sizes): (usize, &[usize]) = match d {
            2 => (64, &self.square),
            _ => (16, &self.cube),
        };
        let apart = |along: usize| {
            let (place, size) = (site / side.pow(along as u32) % side, sizes[along]);
            size == side || (place / size < side / size && place % size + 1 < size)
        };
        (0..d).all(apart)
    }
}

impl Bench {
    /// Two systems that differ inside the patches alone. Bonds that are drawn hold inside a patch, where the couplings are 1, and
    /// nowhere else, since there they are 0. The seed's cluster is a patch.
    fn patched(&mut self, mode: Mode, form: Form, d: usize, patches: Patches) -> Single {
        let mut panel = timing::panel(&mut self.rand, mode, form, d, 2);
        let inside = |site: usize| patches.inside(d, site);
        panel.couplings = (0..d * N)
            .map(|bond| i32::from(inside(bond / d) && inside(panel.fwd[bond] as usize)))
            .collect();
        let second = |site: usize| if inside(site) { -1 } else { 1 };
        let spins = match mode {
            Mode::Cmr => vec![1; 2 * N],
            _ => (0..2 * N)
                .map(|at| if at < N { 1 } else { second(at - N) })
                .collect(),
        };
        let mut case = timing::single_on(&mut self.rand, panel, 2, spins);
        assert!(inside(0) && !inside(N - 1));
        (case.temperature, case.reference, case.seed) = (0.01, N - 1, 0);
        case
    }

    /// Wolff's whole call against the Rust's search from the seed.
    fn wolff_cell(&mut self, mode: Mode, patches: Patches) -> String {
        let case = self.patched(mode, Form::Wolff, 2, patches);
        let times = self.single(&case, 1);
        times.tell(&format!("{} Wolff {}", mode.name(), patches.share));
        self.cell(times.all, times.rust.and_then(|r| r.depth), |_| {
            String::new()
        })
    }

    /// What a call that grows takes beside its tests, against the same search; behind it the whole call.
    fn grow_cell(&mut self, mode: Mode, d: usize, patches: Patches) -> String {
        let case = self.patched(mode, Form::Grow, d, patches);
        let times = self.single(&case, 1);
        times.tell(&format!("{} grow D={d} {}", mode.name(), patches.share));
        let (moving, all) = (times.moving(), times.all);
        self.cell(moving, times.rust.map(|r| r.own), |rust| {
            format!("; {:.2}", all / rust)
        })
    }

    pub fn one_cluster(&mut self) {
        let shares = PATCHES.map(|p| p.share);
        let first = "Mode, and the cluster's share of the sites";
        head(
            "Grow, N = 2: move / the Rust's search from the seed without outputs; behind it whole call / Rust",
            first,
            &shares,
        );
        for mode in Mode::ALL {
            for d in [2, 3] {
                let cells = PATCHES.map(|patches| self.grow_cell(mode, d, patches));
                row(&format!("{}, D = {d}", mode.name()), cells.into(), 3);
            }
        }
        self.ratios.print();
        head(
            "Wolff, N = 2, D = 2: whole call / the same search",
            first,
            &shares,
        );
        for mode in Mode::ALL {
            let cells = PATCHES.map(|patches| self.wolff_cell(mode, patches));
            row(mode.name(), cells.into(), 3);
        }
        self.ratios.print();
    }

    pub fn small_cell(&mut self, mode: Mode, form: Form, n: usize) -> String {
        let panel = timing::panel_of(&mut self.rand, mode, form, n, 2, 2);
        let case = timing::single(&mut self.rand, panel, 2);
        let times = self.single(&case, 8192 / n);
        times.tell(&format!("{} {} n={n}", mode.name(), form.name()));
        let share = 100.0 * times.tests / times.all;
        self.cell(times.all, times.rust.map(|r| r.own), |_| {
            format!("; {share:.0} %")
        })
    }
}
