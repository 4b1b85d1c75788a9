//! Request 14/14: a sweep by the steps of its tasks, in any order that keeps each task's own three in order. It must end in what the sweep as one call
//! ends in. The model and the port each make the steps, and one may make those of a task that the other began.
use crate::case::{Lent, Swept};
use crate::model::{self, lengths, Lengths};
use crate::rand::Rand;
use calls::{Answer, Coding, Sweep, SweepAnswer, TaskChoose, TaskLabel, TaskWrite};

mod task;

pub use task::{Task, Which};

/// A side that makes steps. Its sweeps are by rows.
pub trait Steps {
    /// 0, or a refusal number.
    fn test_sweep(&mut self, call: &Sweep) -> u8;
    fn label(&mut self, call: TaskLabel) -> Answer;
    /// 0, or a refusal number.
    fn choose(&mut self, call: TaskChoose) -> u8;
    /// 0, or a refusal number.
    fn write(&mut self, call: TaskWrite) -> u8;
}

impl Steps for model::Model {
    fn test_sweep(&mut self, call: &Sweep) -> u8 {
        model::test_sweep(call)
    }

    fn label(&mut self, call: TaskLabel) -> Answer {
        model::task_label(call)
    }

    fn choose(&mut self, call: TaskChoose) -> u8 {
        model::task_choose(call)
    }

    fn write(&mut self, call: TaskWrite) -> u8 {
        model::task_write(call)
    }
}

/// The same sweep with its permutations as rows. What is no number gets a row that is no permutation.
pub fn spelt_out(case: &Swept) -> Swept {
    let mut case = case.clone();
    if case.panel.numbers() {
        let row = |&number: &u8| {
            let mut row = [0; 5];
            model::row_of(number, &mut row);
            row
        };
        case.choices.perms = case.choices.perms.iter().flat_map(row).collect();
    }
    case.panel.coding = Coding::Rows;
    case
}

/// A task's own buffers, and how many of its steps are made.
struct Own {
    number: usize,
    made: usize,
    rows: Vec<i8>,
    totals: Vec<i64>,
    blue: Vec<u8>,
    area: Vec<u8>,
}

/// Where a task's part of a buffer is; nowhere where the call does not take it.
fn part(each: Option<usize>, number: usize) -> std::ops::Range<usize> {
    let length = each.unwrap_or(0);
    number * length..(number + 1) * length
}

/// A sweep by rows that is not refused, taken apart.
struct Apart<'a> {
    case: &'a Swept,
    each: Lengths,
    lent: Lent,
    answers: [u32; 3],
}

impl Apart<'_> {
    fn group(&self, number: usize) -> &[u32] {
        let (case, groups) = (self.case, self.case.r / self.case.members);
        &case.order[number / groups * case.r + number % groups * case.members..][..case.members]
    }

    fn own(&self, number: usize) -> Own {
        let (panel, lent) = (&self.case.panel, &self.lent);
        let group: Vec<usize> = self.group(number).iter().map(|&k| k as usize).collect();
        let row = |&k: &usize| lent.spins[k * panel.n..][..panel.n].to_vec();
        let kept = group.iter().filter(|_| panel.keeping());
        Own {
            number,
            made: 0,
            rows: group.iter().flat_map(row).collect(),
            totals: kept.map(|&k| lent.totals[k]).collect(),
            blue: vec![9; panel.n],
            area: vec![9; panel.n],
        }
    }

    fn site(&self, sites: &[u32], each: Option<usize>, number: usize) -> usize {
        let part = &sites[part(each, number)];
        part.first().map_or(0, |&site| site as usize)
    }

    fn label(&mut self, own: &mut Own, side: &mut dyn Steps) -> Answer {
        let (case, panel, each, q) = (self.case, &self.case.panel, self.each, own.number);
        let temperature = match panel.mode.draws() {
            true => case.temperatures[q / (case.r / case.members)],
            false => f32::NAN,
        };
        let reference = self.site(&case.references, each.references, q);
        let seed = self.site(&case.seeds, each.seeds, q);
        let (lent, choices) = (&mut self.lent, &case.choices);
        side.label(TaskLabel {
            mode: panel.mode,
            form: panel.form,
            n: panel.n,
            d: panel.d,
            members: case.members,
            rows: &own.rows,
            fwd: &panel.fwd,
            bwd: &panel.bwd,
            pins: &panel.pins,
            couplings: &panel.couplings,
            temperature,
            cuts: &choices.cuts[part(each.cuts, q)],
            reference,
            seed,
            flips: &choices.flips[part(each.flips, q)],
            perms: &choices.perms[part(each.perms, q)],
            greys: &choices.greys[part(each.greys, q)],
            labels: &mut lent.labels[part(each.labels, q)],
            grey_labels: &mut lent.grey_labels[part(each.grey_labels, q)],
            counts: &mut lent.counts[part(each.counts, q)],
            sizes: &mut lent.sizes[part(each.sizes, q)],
            member_sites: &mut lent.member_sites[part(each.member_sites, q)],
            found: &mut lent.found[part(each.found, q)],
            grey_found: &mut lent.grey_found[part(each.grey_found, q)],
            blue: &mut own.blue,
        })
    }

    fn choose(&self, own: &mut Own, side: &mut dyn Steps) -> u8 {
        let (case, panel, each, q) = (self.case, &self.case.panel, self.each, own.number);
        let (lent, choices) = (&self.lent, &case.choices);
        side.choose(TaskChoose {
            mode: panel.mode,
            form: panel.form,
            n: panel.n,
            d: panel.d,
            members: case.members,
            rows: &own.rows,
            pins: &panel.pins,
            reference: self.site(&case.references, each.references, q),
            seed: self.site(&case.seeds, each.seeds, q),
            flips: &choices.flips[part(each.flips, q)],
            perms: &choices.perms[part(each.perms, q)],
            greys: &choices.greys[part(each.greys, q)],
            labels: &lent.labels[part(each.labels, q)],
            grey_labels: &lent.grey_labels[part(each.grey_labels, q)],
            member_sites: &lent.member_sites[part(each.member_sites, q)],
            blue: &own.blue,
            area: &mut own.area,
        })
    }

    fn write(&self, own: &mut Own, side: &mut dyn Steps) -> u8 {
        let (panel, each, q) = (&self.case.panel, self.each, own.number);
        side.write(TaskWrite {
            mode: panel.mode,
            form: panel.form,
            keeps: panel.keeps,
            n: panel.n,
            d: panel.d,
            members: self.case.members,
            rows: &mut own.rows,
            totals: &mut own.totals,
            fwd: &panel.fwd,
            bwd: &panel.bwd,
            couplings: &panel.couplings,
            member_sites: &self.lent.member_sites[part(each.member_sites, q)],
            area: &own.area,
        })
    }

    /// The next step of a task; rows and totals go back to the panel with the last.
    fn step(&mut self, own: &mut Own, side: &mut dyn Steps) {
        match own.made {
            0 => match self.label(own, side) {
                Answer::Idle => self.answers[0] += 1,
                Answer::Moved => self.answers[1] += 1,
                Answer::Held => self.answers[2] += 1,
                Answer::Refused(number) => panic!("label is refused with {number}"),
            },
            1 => assert_eq!(self.choose(own, side), 0, "choose is refused"),
            _ => {
                assert_eq!(self.write(own, side), 0, "write is refused");
                let n = self.case.panel.n;
                for (k, system) in self.group(own.number).to_vec().into_iter().enumerate() {
                    let to = &mut self.lent.spins[system as usize * n..][..n];
                    to.copy_from_slice(&own.rows[k * n..][..n]);
                    if let Some(&total) = own.totals.get(k) {
                        self.lent.totals[system as usize] = total;
                    }
                }
            }
        }
        own.made += 1;
    }
}

/// A sweep by its tasks' steps, all of them in a shuffled order, each by one of these sides. Rows are copied out of the panel before the first step.
pub fn run(case: &Swept, rand: &mut Rand, sides: &mut [Box<dyn Steps>]) -> (SweepAnswer, Lent) {
    let case = spelt_out(case);
    let mut lent = case.lent.clone();
    let numbers: Vec<u8> = sides
        .iter_mut()
        .map(|side| side.test_sweep(&case.sweep(&mut lent)))
        .collect();
    assert!(numbers.iter().all(|&number| number == numbers[0]));
    if numbers[0] != 0 {
        return (SweepAnswer::Refused(numbers[0]), lent);
    }
    let panel = &case.panel;
    let each = lengths(panel.mode, panel.form, panel.n, panel.d, case.members, 1);
    let mut apart = Apart {
        case: &case,
        each,
        lent,
        answers: [0; 3],
    };
    let groups = case.r / case.members;
    let unmasked = (0..case.t * groups).filter(|q| case.masks[q / groups] == 0);
    let mut tasks: Vec<Own> = unmasked.map(|q| apart.own(q)).collect();
    for at in rand.permutation(3 * tasks.len()) {
        let side = rand.range(0, sides.len() - 1);
        apart.step(&mut tasks[at / 3], &mut *sides[side]);
    }
    let [idle, moved, held] = apart.answers;
    (SweepAnswer::Swept { idle, moved, held }, apart.lent)
}
