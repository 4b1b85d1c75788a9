//! Permutations of five by number (8/14): calls beside the same calls by rows, and both ways between a number and its row beside plain tables.
use crate::{head, row, Bench};
use calls::{Form, Mode};
use tsorvenk_runs::model::Model;
use tsorvenk_runs::timing::{self, refused_single, N};

const FIVE: usize = 5;

impl Bench {
    /// By numbers / by rows, and the tests alone of both.
    fn coded_single(&mut self, mode: Mode, form: Form, d: usize) -> String {
        let panel = timing::panel(&mut self.rand, mode, form, d, FIVE);
        let by_rows = timing::single(&mut self.rand, panel, FIVE);
        let by_number = by_rows.by_number();
        let expected = by_rows.run(&mut Model);
        assert!(by_rows.run(self.port.as_mut()) == expected);
        assert!(by_number.run(self.port.as_mut()) == expected);
        let [(rows, _), (numbers, _)] = [&by_rows, &by_number].map(|case| self.step(case, 1));
        let [(row_tests, _), (number_tests, _)] =
            [&by_rows, &by_number].map(|case| self.step(&refused_single(case), 1));
        self.cell(numbers, Some(rows), |_| {
            format!("; tests {number_tests:.2} / {row_tests:.2}")
        })
    }

    /// Eight tasks, of eight temperatures.
    fn coded_sweep(&mut self, mode: Mode, form: Form, d: usize) -> String {
        let by_rows = timing::swept(&mut self.rand, mode, form, d, FIVE);
        let by_number = by_rows.by_number();
        let expected = by_rows.run(&mut Model);
        assert!(by_rows.run(self.port.as_mut()) == expected);
        assert!(by_number.run(self.port.as_mut()) == expected);
        let repetitions = self.repetitions.div_ceil(4);
        let [(rows, _), (numbers, _)] =
            [&by_rows, &by_number].map(|case| self.sweep(case, repetitions));
        self.cell(numbers, Some(rows), |_| String::new())
    }

    pub fn coded(&mut self) {
        let title = format!(
            "Permutations of five by number, n = {N}, D = 2: whole call / the same by rows; the tests of both. Moves with S = 5, sweeps \
            with t = 8, r = 8"
        );
        head(&title, "Mode and form", &["move", "sweep"]);
        for mode in [Mode::Perm, Mode::Gperm] {
            for form in [Form::Sw, Form::Wolff, Form::Grow] {
                let cells = vec![
                    self.coded_single(mode, form, 2),
                    self.coded_sweep(mode, form, 2),
                ];
                row(&format!("{} {}", mode.name(), form.name()), cells, 2);
            }
        }
        self.ratios.print();
        println!("\nnumbers and rows");
        self.spellings();
    }

    #[cfg(port)]
    fn spellings(&mut self) {
        let mut rand = self.rand.clone();
        let numbers: Vec<u8> = (0..N).map(|_| rand.range(0, 119) as u8).collect();
        spellings::row_line(self.repetitions, &numbers);
        spellings::number_line(self.repetitions, &numbers);
    }

    #[cfg(not(port))]
    fn spellings(&mut self) {
        println!("left out: the library was not found when this was built");
    }
}

/// 4,096 choices one by one; the plain sides are functions that are called, as the exported ones are.
#[cfg(port)]
mod spellings {
    use std::hint::black_box;
    use tsorvenk_runs::model::orders;
    use tsorvenk_runs::timing::median;

    /// The rows by number, and the numbers by a row as five digits below five; 255 where that is no permutation.
    struct Tables {
        rows: [[u8; 5]; 120],
        numbers: [u8; 3125],
    }

    fn digits(row: &[u8]) -> usize {
        row.iter()
            .fold(0, |word, &entry| word * 5 + usize::from(entry))
    }

    impl Tables {
        fn new() -> Tables {
            let mut tables = Tables {
                rows: [[0; 5]; 120],
                numbers: [255; 3125],
            };
            tables.rows.copy_from_slice(orders());
            for (number, row) in orders().iter().enumerate() {
                tables.numbers[digits(row)] = number as u8;
            }
            tables
        }

        #[inline(never)]
        fn row_of(&self, number: u8, row: &mut [u8]) -> u8 {
            if row.len() != 5 {
                return 2;
            }
            let Some(found) = self.rows.get(usize::from(number)) else {
                return 9;
            };
            row.copy_from_slice(found);
            0
        }

        #[inline(never)]
        fn number_of(&self, row: &[u8], number: &mut [u8]) -> u8 {
            if row.len() != 5 || number.len() != 1 {
                return 2;
            }
            if row.iter().any(|&entry| entry > 4) {
                return 9;
            }
            match self.numbers[digits(row)] {
                255 => 9,
                found => {
                    number[0] = found;
                    0
                }
            }
        }
    }

    fn print(name: &str, port: f64, plain: f64) {
        let ratio = port / plain;
        println!("{name:32} port {port:9.2} | plain {plain:9.2} ({ratio:5.2})");
    }

    pub fn row_line(repetitions: usize, numbers: &[u8]) {
        let tables = Tables::new();
        let mut ours = vec![0; 5 * numbers.len()];
        let mut theirs = ours.clone();
        let port = median(
            repetitions,
            &mut ours,
            |_| {},
            |rows| {
                for (row, &number) in rows.chunks_mut(5).zip(black_box(numbers)) {
                    row.copy_from_slice(&tsorvenk::row_of(number).unwrap());
                }
            },
        );
        let plain = median(
            repetitions,
            &mut theirs,
            |_| {},
            |rows| {
                for (row, &number) in rows.chunks_mut(5).zip(black_box(numbers)) {
                    assert_eq!(tables.row_of(number, row), 0);
                }
            },
        );
        assert!(ours == theirs);
        print("4,096 rows of their numbers", port, plain);
    }

    pub fn number_line(repetitions: usize, numbers: &[u8]) {
        let tables = Tables::new();
        let rows: Vec<u8> = numbers
            .iter()
            .flat_map(|&number| orders()[usize::from(number)])
            .collect();
        let mut ours = vec![0; numbers.len()];
        let mut theirs = ours.clone();
        let port = median(
            repetitions,
            &mut ours,
            |_| {},
            |found| {
                for (number, row) in found.iter_mut().zip(black_box(&rows).chunks(5)) {
                    *number = tsorvenk::number_of(row).unwrap();
                }
            },
        );
        let plain = median(
            repetitions,
            &mut theirs,
            |_| {},
            |found| {
                for (number, row) in found.chunks_mut(1).zip(black_box(&rows).chunks(5)) {
                    assert_eq!(tables.number_of(row, number), 0);
                }
            },
        );
        assert!(ours == numbers && theirs == numbers);
        print("4,096 numbers of their rows", port, plain);
    }
}
