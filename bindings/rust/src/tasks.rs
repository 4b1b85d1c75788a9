//! A sweep's tasks in any order (14/14): tasks that carry their own rows and areas, and a type for each step that is made, so that
//! a task's three cannot be taken in another order.
use crate::answers::{Refusal, Stepped};
use crate::calls::{Form, Keeps, Mode, Sweep, TaskChoose, TaskLabel, TaskWrite};
use crate::steps::{rows_of, task_choose, task_label, task_write, tested};
use std::borrow::Cow;
use std::sync::Arc;

mod areas;
mod merging;

use areas::{areas, part, Each, Outputs};
pub use merging::{Merging, NotMerged};

/// What all tasks of one sweep share and none writes. It is also what tells one sweep's tasks from another's.
#[derive(Debug)]
struct Shared<'a> {
    mode: Mode,
    form: Form,
    keeps: Keeps,
    n: usize,
    d: usize,
    s: usize,
    members: usize,
    fwd: &'a [u32],
    bwd: &'a [u32],
    pins: Option<&'a [u8]>,
    couplings: &'a [i32],
}

impl Shared<'_> {
    fn keeping(&self) -> bool {
        self.keeps == Keeps::Totals && self.form != Form::Observe
    }
}

/// All that is one task's own.
#[derive(Debug)]
struct Own<'a> {
    shared: Arc<Shared<'a>>,
    number: usize,
    group: &'a [u32],
    temperature: f32,
    cuts: &'a [f32],
    reference: usize,
    seed: usize,
    flips: &'a [u8],
    perms: Cow<'a, [u8]>,
    greys: &'a [u8],
    rows: Vec<i8>,
    totals: Vec<i64>,
    outputs: Outputs<'a>,
    blue: Vec<u8>,
    area: Vec<u8>,
}

impl<'a> Sweep<'a> {
    /// Tests the sweep on these spins and totals, and copies the rows of its tasks out of them, for its tasks to be taken in any order.
    /// `spins` and `totals` of the call itself are left out, so that the panel is free until [`Merging::merge`] writes it.
    ///
    /// Where [`sweep`](crate::sweep) would be refused this is, with the same number, and there is no task.
    ///
    /// ```
    /// use tsorvenk::{Form, Mode, Refusal, Sweep};
    ///
    /// // one site that is its own neighbour, four systems at one temperature, in pairs: (+, -) acts and (+, +) does not
    /// let mut spins = [1, -1, 1, 1];
    /// let (mut labels, mut counts, mut sizes, mut found) = ([0; 2], [0; 4], [0; 8], [0; 2]);
    /// let accepted = Sweep {
    ///     mode: Mode::Pair,
    ///     form: Form::Wolff,
    ///     n: 1,
    ///     d: 1,
    ///     s: 4,
    ///     t: 1,
    ///     r: 4,
    ///     members: 2,
    ///     fwd: &[0],
    ///     bwd: &[0],
    ///     order: &[0, 1, 2, 3],
    ///     masks: &[0],
    ///     seeds: &[0, 0],
    ///     labels: &mut labels,
    ///     counts: &mut counts,
    ///     sizes: &mut sizes,
    ///     found: &mut found,
    ///     ..Default::default()
    /// }
    /// .test(&spins, &[])?;
    /// let (tasks, merging) = accepted.split();
    /// // the last task first, and each on a thread of its own
    /// let done: Result<Vec<_>, Refusal> = std::thread::scope(|scope| {
    ///     let threads: Vec<_> = tasks.into_iter().rev().map(|task| scope.spawn(|| task.label()?.choose()?.write())).collect();
    ///     threads.into_iter().map(|thread| thread.join().unwrap()).collect()
    /// });
    /// let swept = merging.merge(done?, &mut spins, &mut [])?;
    /// assert_eq!((swept.idle, swept.moved, swept.held), (1, 1, 0));
    /// assert_eq!(spins, [-1, 1, 1, 1]);
    /// assert_eq!((found, counts), ([1, 1], [0, 1, 0, 0]));
    /// # Ok::<(), Box<dyn std::error::Error>>(())
    /// ```
    ///
    /// A task's steps cannot be taken in another order, nor twice:
    ///
    /// ```compile_fail,E0599
    /// fn skip(task: tsorvenk::Task) {
    ///     let _ = task.write();
    /// }
    /// ```
    pub fn test(mut self, spins: &[i8], totals: &[i64]) -> Result<Accepted<'a>, Refusal> {
        let perms = rows_of(&self);
        tested(&self, spins, totals, &perms)?;
        let shared = Arc::new(Shared {
            mode: self.mode,
            form: self.form,
            keeps: self.keeps,
            n: self.n,
            d: self.d,
            s: self.s,
            members: self.members,
            fwd: self.fwd,
            bwd: self.bwd,
            pins: self.pins,
            couplings: self.couplings,
        });
        let each = Each::of(self.mode, self.form, self.n, self.d, self.members);
        let groups = self.r / self.members;
        let outputs = areas(&mut self, &each, groups);
        let unmasked = outputs.into_iter().enumerate();
        let tasks = unmasked
            .filter(|(number, _)| self.masks[number / groups] == 0)
            .map(|(number, outputs)| {
                let own = Own::new(&self, &shared, &each, number, &perms, outputs);
                Task(Box::new(own.lent(spins, totals)))
            })
            .collect();
        Ok(Accepted { shared, tasks })
    }
}

impl<'a> Own<'a> {
    /// A task of a sweep that is not refused, whose lengths are exact; its rows and totals are not there yet.
    fn new(
        sweep: &Sweep<'a>,
        shared: &Arc<Shared<'a>>,
        each: &Each,
        number: usize,
        perms: &Cow<'a, [u8]>,
        outputs: Outputs<'a>,
    ) -> Self {
        let groups = sweep.r / sweep.members;
        let (j, g) = (number / groups, number % groups);
        let site = |sites: &[u32]| sites.first().map_or(0, |&site| site as usize);
        let heat = if each.cuts > 0 {
            sweep.temperatures
        } else {
            &[]
        };
        Own {
            shared: Arc::clone(shared),
            number,
            group: &sweep.order[j * sweep.r + g * sweep.members..][..sweep.members],
            temperature: heat.get(j).copied().unwrap_or_default(),
            cuts: part(sweep.cuts, each.cuts, number),
            reference: site(part(sweep.references, each.references, number)),
            seed: site(part(sweep.seeds, each.seeds, number)),
            flips: part(sweep.flips, each.flips, number),
            perms: match perms {
                Cow::Borrowed(rows) => Cow::Borrowed(part(rows, each.perms, number)),
                Cow::Owned(rows) => Cow::Owned(part(rows, each.perms, number).to_vec()),
            },
            greys: part(sweep.greys, each.greys, number),
            rows: Vec::new(),
            totals: Vec::new(),
            outputs,
            blue: vec![0; each.blue],
            area: vec![0; sweep.n],
        }
    }

    /// The same with its rows, and its totals where they are kept, out of the panel.
    fn lent(mut self, spins: &[i8], totals: &[i64]) -> Self {
        let n = self.shared.n;
        let row = |system: &u32| &spins[*system as usize * n..][..n];
        self.rows = self.group.iter().flat_map(row).copied().collect();
        if self.shared.keeping() {
            let total = |system: &u32| totals[*system as usize];
            self.totals = self.group.iter().map(total).collect();
        }
        self
    }
}

/// A sweep that is not refused: [`Sweep::test`] makes one.
#[derive(Debug)]
pub struct Accepted<'a> {
    shared: Arc<Shared<'a>>,
    tasks: Vec<Task<'a>>,
}

impl<'a> Accepted<'a> {
    /// Its unmasked tasks in ascending order, and what puts them together again.
    pub fn split(self) -> (Vec<Task<'a>>, Merging<'a>) {
        let Accepted { shared, tasks } = self;
        let count = tasks.len();
        (tasks, Merging::new(shared, count))
    }
}

/// A task of which no step is made. It has its own rows, totals and areas, so that tasks may be sent to threads and taken in any
/// order. No step of an accepted sweep is refused.
#[derive(Debug)]
pub struct Task<'a>(Box<Own<'a>>);

/// A task that is tested and labelled: its outputs are written.
#[derive(Debug)]
pub struct Labelled<'a>(Box<Own<'a>>, Stepped);

/// A task whose columns after the move are known. Its rows are as they were.
#[derive(Debug)]
pub struct Chosen<'a>(Box<Own<'a>>, Stepped);

/// A task whose rows and totals are written, in its own copy: [`Merging::merge`] takes them to the panel.
#[derive(Debug)]
pub struct Written<'a>(Box<Own<'a>>, Stepped);

impl<'a> Task<'a> {
    /// The first step, [`task_label`].
    pub fn label(self) -> Result<Labelled<'a>, Refusal> {
        let mut own = self.0;
        let to = &mut *own;
        let (shared, outputs) = (&*to.shared, &mut to.outputs);
        let stepped = task_label(TaskLabel {
            mode: shared.mode,
            form: shared.form,
            n: shared.n,
            d: shared.d,
            members: shared.members,
            rows: &to.rows,
            fwd: shared.fwd,
            bwd: shared.bwd,
            pins: shared.pins,
            couplings: shared.couplings,
            temperature: to.temperature,
            cuts: to.cuts,
            reference: to.reference,
            seed: to.seed,
            flips: to.flips,
            perms: &to.perms,
            greys: to.greys,
            labels: outputs.labels,
            grey_labels: outputs.grey_labels,
            counts: outputs.counts,
            sizes: outputs.sizes,
            member_sites: outputs.member_sites,
            found: outputs.found,
            grey_found: outputs.grey_found,
            blue: &mut to.blue,
        })?;
        Ok(Labelled(own, stepped))
    }
}

impl<'a> Labelled<'a> {
    /// The second step, [`task_choose`].
    pub fn choose(self) -> Result<Chosen<'a>, Refusal> {
        let Labelled(mut own, stepped) = self;
        let to = &mut *own;
        let (shared, outputs) = (&*to.shared, &to.outputs);
        task_choose(TaskChoose {
            mode: shared.mode,
            form: shared.form,
            n: shared.n,
            d: shared.d,
            members: shared.members,
            rows: &to.rows,
            pins: shared.pins,
            reference: to.reference,
            seed: to.seed,
            flips: to.flips,
            perms: &to.perms,
            greys: to.greys,
            labels: outputs.labels,
            grey_labels: outputs.grey_labels,
            member_sites: outputs.member_sites,
            blue: &to.blue,
            area: &mut to.area,
        })?;
        Ok(Chosen(own, stepped))
    }
}

impl<'a> Chosen<'a> {
    /// The third step, [`task_write`].
    pub fn write(self) -> Result<Written<'a>, Refusal> {
        let Chosen(mut own, stepped) = self;
        let to = &mut *own;
        let (shared, outputs) = (&*to.shared, &to.outputs);
        task_write(TaskWrite {
            mode: shared.mode,
            form: shared.form,
            keeps: shared.keeps,
            n: shared.n,
            d: shared.d,
            members: shared.members,
            rows: &mut to.rows,
            totals: &mut to.totals,
            fwd: shared.fwd,
            bwd: shared.bwd,
            couplings: shared.couplings,
            member_sites: outputs.member_sites,
            area: &to.area,
        })?;
        Ok(Written(own, stepped))
    }
}

/// What can be asked of a task at any time.
macro_rules! asked {
    ($($state:ident),*) => {
        $(impl $state<'_> {
            /// Its number in the sweep, at which its areas are.
            pub fn number(&self) -> usize {
                self.0.number
            }

            /// Its systems, in the order of its rows.
            pub fn group(&self) -> &[u32] {
                self.0.group
            }

            /// Its own rows, N * n: the spins before the move until the third step is made.
            pub fn rows(&self) -> &[i8] {
                &self.0.rows
            }

            /// Its own totals, N, where they are kept.
            pub fn totals(&self) -> &[i64] {
                &self.0.totals
            }
        })*
    };
}

/// What the first step answered.
macro_rules! answered {
    ($($state:ident),*) => {
        $(impl $state<'_> {
            /// What the move answers.
            pub fn stepped(&self) -> Stepped {
                self.1
            }
        })*
    };
}

asked!(Task, Labelled, Chosen, Written);
answered!(Labelled, Chosen, Written);
