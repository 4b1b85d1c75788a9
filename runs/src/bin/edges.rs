//! edges [texts] [seed] [largest]: the port's reader and writer of edge lists beside request 2/14 in plain Rust.
//!
//! `texts` drawn texts (100000 where it is not given), `largest` of them (100) with 4,096 sites, four directions and a line for
//! every bond; a third is good, the rest is damaged. What comes back and the table must be the same, and a refusal must leave
//! the table. Each table that was read is written, with room and without, and the list is read again.
use std::process::ExitCode;
use tsorvenk_runs::edges::make::{self, Case, Room};
use tsorvenk_runs::edges::{self, port, Lattice};
use tsorvenk_runs::rand::Rand;

#[derive(Default)]
struct Run {
    /// How many texts were refused with each number, or read.
    read: [u64; 14],
    written: [u64; 14],
    simple: u64,
    compared: u64,
    differences: u64,
    shortest: Option<(usize, String)>,
}

const LENT: i32 = 0x5a5a_5a5a;

impl Run {
    fn differs(&mut self, length: usize, text: impl FnOnce() -> String) {
        self.differences += 1;
        if self
            .shortest
            .as_ref()
            .is_none_or(|(least, _)| length < *least)
        {
            self.shortest = Some((length, text()));
        }
    }

    /// The number and the table, by the model.
    fn read(&mut self, case: &Case) -> (u8, Vec<i32>) {
        let mut table = vec![LENT; case.couplings];
        let number = edges::read(&case.lattice, &case.text, &mut table);
        let mut found = vec![LENT; case.couplings];
        let answer = port::read(&case.lattice, &case.text, &mut found);
        self.compared += u64::from(answer.is_some());
        let kept = number == 0 || table.iter().all(|&coupling| coupling == LENT);
        if !kept || answer.is_some_and(|answer| (answer, &found) != (number, &table)) {
            self.differs(case.text.len(), || {
                let text = String::from_utf8_lossy(&case.text);
                format!(
                    "{text:?} on {:?}\nmodel {number}, port {answer:?}",
                    case.lattice
                )
            });
        }
        (number, table)
    }

    fn write(&mut self, lattice: &Lattice, room: &Room) -> (u8, Vec<u8>) {
        let mut text = vec![b'x'; room.text];
        let mut written = vec![usize::MAX; room.written];
        let (mut found, mut length) = (text.clone(), written.clone());
        let number = edges::write(lattice, &room.couplings, &mut text, &mut written);
        let answer = port::write(lattice, &room.couplings, &mut found, &mut length);
        self.written[usize::from(number)] += 1;
        self.compared += u64::from(answer.is_some());
        let same = |answer| (answer, &found, &length) == (number, &text, &written);
        if answer.is_some_and(|answer| !same(answer)) {
            self.differs(room.text, || {
                format!("written {room:?} on {lattice:?}\nmodel {number}, port {answer:?}")
            });
        }
        text.truncate(written.first().map_or(0, |&length| length.min(room.text)));
        (number, text)
    }

    /// Writes a table that was read, and reads the list again.
    fn back(&mut self, rand: &mut Rand, case: &Case, table: &[i32]) {
        let length = edges::list(&case.lattice, table).len();
        let room = make::room(rand, table, length);
        let (number, text) = self.write(&case.lattice, &room);
        if number != 0 {
            return;
        }
        let again = Case {
            text,
            ..case.clone()
        };
        let (number, back) = self.read(&again);
        let simple = edges::simple(&case.lattice);
        self.simple += u64::from(simple);
        if number != 0 || (simple && back != room.couplings) {
            self.differs(again.text.len(), || {
                format!("read again with {number}: {again:?}")
            });
        }
    }

    fn text(&mut self, rand: &mut Rand, damaged: bool, whole: bool) {
        let case = match damaged {
            true => make::damaged(rand, whole),
            false => make::good(rand, whole),
        };
        let (number, table) = self.read(&case);
        self.read[usize::from(number)] += 1;
        if number == 0 {
            self.back(rand, &case, &table);
        } else if !damaged {
            self.differs(case.text.len(), || {
                format!("{number} of a good list: {case:?}")
            });
        }
        // the writer's own tests, of what is damaged beside the text
        if damaged && !whole {
            let couplings: Vec<i32> = (0..case.couplings).map(|_| make::coupling(rand)).collect();
            let room = make::room(rand, &couplings, 20 + 19 * couplings.len());
            self.write(&case.lattice, &room);
        }
    }
}

fn tally(counts: &[u64; 14]) -> String {
    let refused = (1..14).filter(|&number| counts[number] > 0);
    refused
        .map(|number| format!(", {} refused with {number}", counts[number]))
        .collect()
}

fn main() -> ExitCode {
    let mut words = std::env::args().skip(1).map(|word| word.parse());
    let mut number = |default: u64| words.next().map_or(Ok(default), |parsed| parsed);
    let (Ok(texts), Ok(seed), Ok(largest)) = (number(100_000), number(1), number(100)) else {
        eprintln!("edges [texts] [seed] [largest]");
        return ExitCode::from(2);
    };
    match port::LINKED {
        true => println!("port: linked"),
        false => println!("port: left out, its static library was not found when this was built"),
    }
    let mut run = Run::default();
    for at in 0..texts {
        let rand = &mut Rand::of(&[seed, at]);
        run.text(rand, at % 3 != 0, at < largest);
        if (at + 1) % (texts / 4).max(1) == 0 {
            println!("{} texts, {largest} of them of the largest panel", at + 1);
        }
    }
    println!("texts: {} read{}", run.read[0], tally(&run.read));
    println!(
        "lists: {} written{}; {} of panels without double bonds, read again as the same table",
        run.written[0],
        tally(&run.written),
        run.simple
    );
    println!("calls compared with the port: {}", run.compared);
    match run.shortest {
        None => {
            println!("no difference");
            ExitCode::SUCCESS
        }
        Some((_, shortest)) => {
            println!("{} differences; the shortest:\n{shortest}", run.differences);
            ExitCode::FAILURE
        }
    }
}
