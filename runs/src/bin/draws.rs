//! draws [seeds] [seed] [steps]: the draws of the port beside request 1/14 in plain Rust.
//!
//! `steps` words from each of `seeds` sources (1000 and 1000 where they are not given); then, for each of these, a call of
//! every kind, one that takes words again, one that draws identities again, and twenty damaged ones. What comes back, the source
//! and the buffer must be the same; a refusal must leave both as they were lent.
use std::process::ExitCode;
use tsorvenk_runs::draws::backwards::{before, giving};
use tsorvenk_runs::draws::make::{self, Case, KINDS};
use tsorvenk_runs::draws::{port, Draw, Source};
use tsorvenk_runs::rand::Rand;

#[derive(Default)]
struct Run {
    compared: u64,
    refused: [u64; 13],
    differences: u64,
    first: Option<String>,
}

impl Run {
    fn differs(&mut self, text: String) {
        self.differences += 1;
        self.first.get_or_insert(text);
    }

    /// The case after the call, by the model.
    fn compare(&mut self, case: &Case) -> Case {
        let mut after = case.clone();
        let number = after.draw.answer(&mut after.source, &mut after.out);
        self.refused[usize::from(number)] += 1;
        if number != 0 && after != *case {
            self.differs(format!("the model wrote after {number}: {case:?}"));
        }
        if let Some(found) = port::run(case) {
            self.compared += 1;
            if found != (number, after.clone()) {
                self.differs(format!(
                    "{case:?}\nmodel {number} {after:?}\nport {} {:?}",
                    found.0, found.1
                ));
            }
        }
        after
    }

    fn words(&mut self, rand: &mut Rand, steps: u64) {
        let mut source = make::seed(rand);
        let mut case = Case {
            draw: Draw::Word,
            source: source.0.to_vec(),
            out: Draw::Word.lent(1),
        };
        for _ in 0..steps {
            let from = source;
            source.word();
            if before(source) != from {
                self.differs(format!("a step back from {source:?} is not {from:?}"));
            }
            case = self.compare(&case);
        }
    }

    /// How many words more than `needed` the model drew.
    fn more(&mut self, case: &Case, needed: usize) -> usize {
        let after = self.compare(case);
        let mut source = Source(case.source[..].try_into().unwrap());
        let mut drawn = 0;
        while source.0[..] != after.source && drawn < 100_000 {
            source.word();
            drawn += 1;
        }
        drawn - needed.min(drawn)
    }

    fn again(&mut self, rand: &mut Rand) -> usize {
        let (case, turns) = make::again(rand);
        let needed = match case.draw {
            Draw::Permutation(members) | Draw::Rows(members) | Draw::WolffRows(members) => {
                case.out.len() / members * (members - 1)
            }
            _ => case.out.len(),
        };
        let more = self.more(&case, needed);
        if more < turns {
            self.differs(format!(
                "{more} words are taken again, not {turns}: {case:?}"
            ));
        }
        turns
    }

    fn identities(&mut self, rand: &mut Rand) -> usize {
        let (case, turns) = make::identities(rand);
        let Draw::WolffRows(members) = case.draw else {
            unreachable!()
        };
        let more = self.more(&case, 3 * (members - 1));
        if more < turns * (members - 1) {
            self.differs(format!("fewer than {turns} identities: {case:?}"));
        }
        turns
    }
}

fn rands(seed: u64, seeds: u64, part: u64) -> impl Iterator<Item = Rand> {
    (0..seeds).map(move |case| Rand::of(&[seed, part, case]))
}

fn main() -> ExitCode {
    let mut words = std::env::args().skip(1).map(|word| word.parse());
    let mut number = |default: u64| words.next().map_or(Ok(default), |parsed| parsed);
    let (Ok(seeds), Ok(seed), Ok(steps)) = (number(1000), number(1), number(1000)) else {
        eprintln!("draws [seeds] [seed] [steps]");
        return ExitCode::from(2);
    };
    match port::LINKED {
        true => println!("port: linked"),
        false => println!("port: left out, its static library was not found when this was built"),
    }
    let mut run = Run::default();
    rands(seed, seeds, 0).for_each(|mut rand| run.words(&mut rand, steps));
    println!("words: {} from {seeds} seeds", seeds * steps);
    for mut rand in rands(seed, seeds, 1) {
        (0..KINDS).for_each(|kind| drop(run.compare(&make::good(&mut rand, kind))));
    }
    println!("good calls: {}, of {KINDS} kinds", KINDS as u64 * seeds);
    let four = rands(seed, seeds, 2).all(|mut rand| {
        let words = [(); 4].map(|_| rand.word());
        let mut source = giving(words);
        [(); 4].map(|_| source.word()) == words
    });
    if !four {
        run.differs("a source built backwards does not give its words".to_string());
    }
    let again: usize = rands(seed, seeds, 3)
        .map(|mut rand| run.again(&mut rand))
        .sum();
    println!("taken again: {again} words in {seeds} calls, up to four in a row; 64 in a row, the refusal, by no source that is known");
    let drawn: usize = rands(seed, seeds, 4)
        .map(|mut rand| run.identities(&mut rand))
        .sum();
    let (case, run_of) = make::longest(&mut Rand::of(&[seed, 5]), 1 << 22);
    run.compare(&case);
    println!("identities drawn again: {drawn} in {seeds} calls, and {run_of} in a row; 64 in a row, the refusal, by no source that is known");
    let accepted = run.refused;
    for mut rand in rands(seed, 20 * seeds, 6) {
        run.compare(&make::damaged(&mut rand));
    }
    println!(
        "damaged calls: {}, refused with 2: {}, with 12: {}",
        20 * seeds,
        run.refused[2] - accepted[2],
        run.refused[12] - accepted[12]
    );
    println!("calls compared with the port: {}", run.compared);
    match run.first {
        None => {
            println!("no difference");
            ExitCode::SUCCESS
        }
        Some(first) => {
            println!("{} differences; the first:\n{first}", run.differences);
            ExitCode::FAILURE
        }
    }
}
