//! The largest edge list, 4,096 sites in four directions with 16,384 lines, beside a plain reader and a plain writer.
#![cfg_attr(not(port), allow(dead_code, unused_imports))] // without the library there is nothing to read beside
use crate::Bench;
use std::fmt::Write;
use std::hint::black_box;
use tsorvenk_runs::edges::{self, make, Lattice};
use tsorvenk_runs::lattices::backward;
use tsorvenk_runs::timing::{median, torus, N};

const D: usize = 4;

/// Lines, fields and numbers by the standard library, and the look-up among the bonds of the two sites, the lowest first. It
/// tests no tables, and of the form only what `parse` does.
fn plain_read(
    lattice: &Lattice,
    text: &str,
    couplings: &mut [i32],
    filled: &mut [bool],
) -> Option<()> {
    filled.fill(false);
    couplings.fill(0);
    let mut lines = text.lines();
    let (n, m) = lines.next()?.split_once(' ')?;
    let (n, m): (usize, usize) = (n.parse().ok()?, m.parse().ok()?);
    let mut count = 0;
    for line in lines {
        let mut fields = line.split(' ');
        let i: usize = fields.next()?.parse().ok()?;
        let j: usize = fields.next()?.parse().ok()?;
        let coupling: i32 = fields.next()?.parse().ok()?;
        if i == 0 || j == 0 || i > n || j > n || coupling.abs() > 1_000_000 {
            return None;
        }
        let (low, high) = (i.min(j) - 1, i.max(j) - 1);
        let from = |site: usize, to: usize| {
            (site * D..site * D + D).find(|&k| !filled[k] && lattice.fwd[k] as usize == to)
        };
        let bond = from(low, high).or_else(|| from(high, low))?;
        filled[bond] = true;
        couplings[bond] = coupling;
        count += 1;
    }
    (n == lattice.n && m == count).then_some(())
}

fn plain_write(lattice: &Lattice, couplings: &[i32], text: &mut String) {
    text.clear();
    let listed = couplings.iter().filter(|&&coupling| coupling != 0).count();
    writeln!(text, "{} {listed}", lattice.n).unwrap();
    for (bond, &coupling) in couplings.iter().enumerate() {
        if coupling != 0 {
            let (i, j) = (bond / D + 1, lattice.fwd[bond] + 1);
            writeln!(text, "{i} {j} {coupling}").unwrap();
        }
    }
}

fn print(name: &str, port: f64, plain: f64) {
    println!(
        "{name:32} port {port:9.2} | plain {plain:9.2} ({:5.2})",
        port / plain
    );
}

impl Bench {
    #[cfg(port)]
    pub fn edges(&mut self) {
        let fwd = torus(D);
        let bwd = backward(N, D, &fwd);
        let (n, d) = (N, D);
        let lattice = Lattice { n, d, fwd, bwd };
        let table: Vec<i32> = (0..N * D)
            .map(|_| match make::coupling(&mut self.rand) {
                0 => 1,
                coupling => coupling,
            })
            .collect();
        let list = edges::list(&lattice, &table);
        let mut ours = vec![0; N * D];
        let read = median(
            self.repetitions,
            &mut ours,
            |_| {},
            |couplings| {
                tsorvenk::read_edges(tsorvenk::ReadEdges {
                    n,
                    d,
                    fwd: &lattice.fwd,
                    bwd: &lattice.bwd,
                    text: black_box(list.as_bytes()),
                    couplings,
                })
                .unwrap()
            },
        );
        let mut theirs = (vec![0; N * D], vec![false; N * D]);
        let plain = median(
            self.repetitions,
            &mut theirs,
            |_| {},
            |(couplings, filled)| {
                plain_read(&lattice, black_box(&list), couplings, filled).unwrap()
            },
        );
        assert!(ours == table && theirs.0 == table);
        print("reading 16,384 lines", read, plain);
        let mut ours = vec![0; tsorvenk::EDGES_ROOM];
        let mut length = 0;
        let written = median(
            self.repetitions,
            &mut ours,
            |_| {},
            |text| {
                let list = tsorvenk::write_edges(tsorvenk::WriteEdges {
                    n,
                    d,
                    fwd: &lattice.fwd,
                    bwd: &lattice.bwd,
                    couplings: black_box(&table),
                    text,
                });
                length = list.unwrap().len();
            },
        );
        let mut theirs = String::with_capacity(tsorvenk::EDGES_ROOM);
        let plain = median(
            self.repetitions,
            &mut theirs,
            |_| {},
            |text| plain_write(&lattice, black_box(&table), text),
        );
        assert!(&ours[..length] == list.as_bytes() && theirs == list);
        print("writing 16,384 lines", written, plain);
    }

    #[cfg(not(port))]
    pub fn edges(&mut self) {
        println!("left out: the library was not found when this was built");
    }
}
