//! One byte for a site's whole group (11/14): moves on bytes beside the same moves on rows, and packing beside a plain loop.
use crate::{head, row, sizes, Bench};
use calls::{Answer, Form, Mode};
use std::hint::black_box;
use tsorvenk_runs::case::Single;
use tsorvenk_runs::model::Model;
use tsorvenk_runs::packed::Layout;
use tsorvenk_runs::timing::{self, in_turn, median, microseconds, N};

const D: usize = 2;
const MANY: usize = 64;

/// The rows one after the other, without a test.
#[inline(never)]
fn plain_pack(rows: &[i8], columns: &mut [u8]) {
    columns.fill(0);
    for (k, row) in rows.chunks_exact(columns.len()).enumerate() {
        for (column, &spin) in columns.iter_mut().zip(row) {
            *column |= u8::from(spin == 1) << k;
        }
    }
}

#[inline(never)]
fn plain_unpack(columns: &[u8], rows: &mut [i8]) {
    for (k, row) in rows.chunks_exact_mut(columns.len()).enumerate() {
        for (spin, column) in row.iter_mut().zip(columns) {
            *spin = if column >> k & 1 == 1 { 1 } else { -1 };
        }
    }
}

/// What packing and unpacking take.
struct Packing {
    pack: f64,
    unpack: f64,
}

impl Packing {
    fn both(&self) -> f64 {
        self.pack + self.unpack
    }
}

impl Bench {
    /// Bytes and rows in turn; both are first compared with the model.
    fn bytes_and_rows(&mut self, case: &Single) -> [f64; 2] {
        let packed = case.packed().expect("a good call has rows");
        let port = self.port.as_mut();
        assert!(case.run(port) == case.run(&mut Model));
        assert!(packed.run(port) == packed.run(&mut Model));
        let (mut bytes, mut rows) = (packed.lent.clone(), case.lent.clone());
        in_turn(self.repetitions, |side| {
            bytes.columns.copy_from_slice(&packed.lent.columns);
            rows.spins.copy_from_slice(&case.lent.spins);
            let mut answer = Answer::Idle;
            let time = microseconds(|| {
                answer = match side {
                    0 => port.packed_step(black_box(&packed).step(&mut bytes)),
                    _ => port.step(black_box(case).step(&mut rows)),
                }
            });
            assert_eq!(answer, Answer::Moved);
            time
        })
    }

    fn packing(&mut self, layout: &Layout) -> Packing {
        let (mut columns, mut rows) = (layout.columns.clone(), layout.rows.clone());
        let port = self.port.as_mut();
        let [pack, unpack] = in_turn(self.repetitions, |side| {
            microseconds(|| {
                let number = match side {
                    0 => port.pack(calls::Pack {
                        n: layout.n,
                        members: layout.members,
                        rows: black_box(&layout.rows),
                        columns: &mut columns,
                    }),
                    _ => port.unpack(calls::Unpack {
                        n: layout.n,
                        members: layout.members,
                        columns: black_box(&layout.columns),
                        rows: &mut rows,
                    }),
                };
                assert_eq!(number, 0);
            })
        });
        assert!(columns == layout.columns && rows == layout.rows);
        Packing { pack, unpack }
    }

    /// Random rows and their columns.
    fn layout(&mut self, members: usize) -> Layout {
        let panel = timing::panel(&mut self.rand, Mode::Perm, Form::Observe, 1, members);
        let case = timing::single(&mut self.rand, panel, members);
        case.packed().expect("a good call has rows").layout()
    }

    fn packing_line(&mut self, members: usize) -> Packing {
        let layout = self.layout(members);
        let port = self.packing(&layout);
        let (mut columns, mut rows) = (layout.columns.clone(), layout.rows.clone());
        let pack = median(
            self.repetitions,
            &mut columns,
            |_| {},
            |columns| plain_pack(black_box(&layout.rows), columns),
        );
        let unpack = median(
            self.repetitions,
            &mut rows,
            |_| {},
            |rows| plain_unpack(black_box(&layout.columns), rows),
        );
        assert!(columns == layout.columns && rows == layout.rows);
        let plain = Packing { pack, unpack };
        println!(
            "{members} rows of {N}: pack {:.2} / {pack:.2} = {:.2} | unpack {:.2} / {unpack:.2} = {:.2} | both {:.2} / {:.2} = {:.2}",
            port.pack,
            port.pack / pack,
            port.unpack,
            port.unpack / unpack,
            port.both(),
            plain.both(),
            port.both() / plain.both(),
        );
        port
    }

    fn packed_cells(&mut self, mode: Mode, form: Form, packing: &[Packing; 2]) -> Vec<String> {
        let members = *sizes(mode, form).last().unwrap();
        let [alone, many] = [members, MANY].map(|s| {
            let panel = timing::panel(&mut self.rand, mode, form, D, s);
            let case = timing::single(&mut self.rand, panel, members);
            self.bytes_and_rows(&case)
        });
        let [whole, beside] =
            [alone, many].map(|[bytes, rows]| self.cell(bytes, Some(rows), |_| String::new()));
        let layout = &packing[usize::from(members == 8)];
        let (spared, both) = (alone[1] - alone[0], layout.both());
        let part = format!("{spared:.2} / {both:.2} = {:.2}", spared / both);
        vec![members.to_string(), whole, part, beside]
    }

    pub fn packed(&mut self) {
        println!("\npacking, all tests made / a plain loop, which makes none");
        let packing = [2, 8].map(|members| self.packing_line(members));
        let title = format!(
            "One byte for a site's group, n = {N}, D = {D}: whole call on bytes / the same on rows, in turn, of a panel of N systems and of one of {MANY}; what \
            bytes spare / what packing and unpacking as many rows takes"
        );
        head(
            &title,
            "Mode and form",
            &["N", "S = N", "spared / pack and unpack", "S = 64"],
        );
        for mode in Mode::ALL {
            for form in Form::ALL {
                let cells = self.packed_cells(mode, form, &packing);
                row(&format!("{} {}", mode.name(), form.name()), cells, 4);
            }
        }
        self.ratios.print();
    }
}
