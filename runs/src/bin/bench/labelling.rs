//! The labelling of random bonds and of shapes that are hard on a forest of parents.
use crate::{head, row, Bench};
use calls::Label;
use published_as_is::Labelling;
use std::hint::black_box;
use tsorvenk_runs::timing::{median, torus, N};

struct Bonds {
    name: String,
    d: usize,
    fwd: Vec<u32>,
    holds: Vec<u8>,
}

const SIDE: usize = 64;

/// Bonds of the square torus that lie along a path of neighbours.
fn along(path: &[usize]) -> Vec<u8> {
    let mut holds = vec![0; 2 * N];
    for ends in path.windows(2) {
        let (low, high) = (ends[0].min(ends[1]), ends[0].max(ends[1]));
        holds[2 * low + usize::from(high - low == SIDE)] = 1;
    }
    holds
}

/// From the rim to the middle, ring by ring.
fn spiral() -> Vec<usize> {
    let (mut path, mut seen) = (vec![0], vec![false; N]);
    seen[0] = true;
    let (mut row, mut column, mut turn) = (0i64, 0i64, 0);
    let side = SIDE as i64;
    while path.len() < N {
        let (down, right) = [(0, 1), (1, 0), (0, -1), (-1, 0)][turn % 4];
        let (r, c) = (row + down, column + right);
        let inside = (0..side).contains(&r) && (0..side).contains(&c);
        if !inside || seen[(r * side + c) as usize] {
            turn += 1;
            continue;
        }
        (row, column) = (r, c);
        seen[(r * side + c) as usize] = true;
        path.push((r * side + c) as usize);
    }
    path
}

/// All columns, joined along the last row only.
fn comb() -> Vec<u8> {
    let (last, tooth) = (SIDE - 1, |i: usize| i / SIDE < SIDE - 1);
    (0..2 * N)
        .map(|bond| match bond % 2 {
            0 => u8::from(bond / 2 / SIDE == last && bond / 2 % SIDE < last),
            _ => u8::from(tooth(bond / 2)),
        })
        .collect()
}

impl Bench {
    /// A path whose sites are visited in the given order, as a lattice of one direction.
    fn path(name: &str, order: &[usize]) -> Bonds {
        let mut fwd = vec![0; N];
        (0..N).for_each(|k| fwd[order[k]] = order[(k + 1) % N] as u32);
        let mut holds = vec![1; N];
        holds[order[N - 1]] = 0;
        let name = name.to_string();
        Bonds {
            name,
            d: 1,
            fwd,
            holds,
        }
    }

    fn shapes(&mut self) -> Vec<Bonds> {
        let forward: Vec<usize> = (0..N).collect();
        let backward: Vec<usize> = (0..N).rev().collect();
        let square = |name: &str, holds: Vec<u8>| Bonds {
            name: name.to_string(),
            d: 2,
            fwd: torus(2),
            holds,
        };
        vec![
            Self::path("path", &forward),
            Self::path("path numbered backwards", &backward),
            Self::path("path numbered at random", &self.rand.permutation(N)),
            square("spiral", along(&spiral())),
            square("comb", comb()),
        ]
    }

    fn random(&mut self, d: usize, percent: usize) -> Bonds {
        Bonds {
            name: format!("D={d}, {percent} % of bonds"),
            d,
            fwd: torus(d),
            holds: (0..d * N)
                .map(|_| u8::from(self.rand.range(1, 100) <= percent))
                .collect(),
        }
    }

    /// The port's time and, where it is there, the Rust's.
    fn times(&mut self, bonds: &Bonds) -> (f64, Option<f64>) {
        let mut outputs = Outputs::new();
        let port = &mut self.port;
        let call = |outputs: &mut Outputs| {
            let code = port.label(label(bonds, outputs));
            assert_eq!(code, 0);
        };
        let all = median(self.repetitions, &mut outputs, |_| {}, call);
        let rust = published_as_is::PRESENT.then(|| {
            let mut rust = Labelling::new(&label(bonds, &mut outputs));
            let call = |rust: &mut Labelling| {
                black_box(rust.run(&bonds.holds));
            };
            median(self.repetitions, &mut rust, |_| {}, call)
        });
        (all, rust)
    }

    fn bonds_cell(&mut self, bonds: &Bonds) -> String {
        let (all, rust) = self.times(bonds);
        eprintln!("{:32} port {all:9.2} | Rust {rust:9.2?}", bonds.name);
        self.cell(all, rust, |_| String::new())
    }

    pub fn labelling(&mut self) {
        let percents = [10, 50, 90, 100];
        let columns = percents.map(|percent| format!("{percent} %"));
        let title = "Labelling, with its tests / Rust";
        head(title, "Bonds", &columns.each_ref().map(String::as_str));
        for d in 1..=4 {
            let cells = percents.map(|percent| {
                let bonds = self.random(d, percent);
                self.bonds_cell(&bonds)
            });
            row(&format!("D = {d}"), cells.into(), 4);
        }
        head(
            "The same of shapes that are hard on a forest",
            "Shape",
            &[""],
        );
        for bonds in self.shapes() {
            let cell = self.bonds_cell(&bonds);
            row(&bonds.name, vec![cell], 1);
        }
        self.ratios.print();
    }
}

struct Outputs {
    labels: Vec<u32>,
    counts: Vec<u32>,
    sizes: Vec<u32>,
    found: Vec<u32>,
}

impl Outputs {
    fn new() -> Self {
        Self {
            labels: vec![0; N],
            counts: vec![0; N + 1],
            sizes: vec![0; 4],
            found: vec![0],
        }
    }
}

fn label<'a>(bonds: &'a Bonds, outputs: &'a mut Outputs) -> Label<'a> {
    Label {
        n: N,
        d: bonds.d,
        fwd: &bonds.fwd,
        holds: &bonds.holds,
        counted: &[1; N],
        labels: &mut outputs.labels,
        counts: &mut outputs.counts,
        sizes: &mut outputs.sizes,
        found: &mut outputs.found,
    }
}
