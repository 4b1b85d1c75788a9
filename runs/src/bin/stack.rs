//! stack: how much of the stack each call of the port uses, at the largest sizes.
//!
//! The part of the stack that a call will use is painted first; what is no longer paint after it was used.
use calls::{Coding, Form, Label, Mode, Port};
use std::hint::black_box;
use std::mem::MaybeUninit;
use tsorvenk_runs::case::{Single, Swept};
use tsorvenk_runs::model::Model;
use tsorvenk_runs::port;
use tsorvenk_runs::rand::Rand;
use tsorvenk_runs::steps::{Task, Which};
use tsorvenk_runs::timing::pieces::kept;
use tsorvenk_runs::timing::{self, torus, N};
use tsorvenk_runs::vendor::Vendored;

const ROOM: usize = 1 << 20;
const PAINT: u8 = 0xa5;
/// More is painted than is looked at, since the frames do not start at one place.
const PAINTED: usize = ROOM + 16384;

#[inline(never)]
fn paint() {
    let mut room = MaybeUninit::<[u8; PAINTED]>::uninit();
    let start = black_box(room.as_mut_ptr().cast::<u8>());
    (0..PAINTED).for_each(|k| unsafe { start.add(k).write_volatile(PAINT) });
}

/// Read below this frame, from the far end of the paint; an array of its own would be probed, and so written.
#[inline(never)]
fn used() -> usize {
    let mark = 0u8;
    let here = black_box(&mark) as *const u8;
    let paint = |k: &usize| unsafe { here.wrapping_sub(*k).read_volatile() } == PAINT;
    let left = (0..ROOM).rev().take_while(paint);
    ROOM - left.count()
}

fn line<T>(name: &str, call: impl FnOnce() -> T) {
    paint();
    black_box(call());
    println!("{name:12} {:7.1} KiB", used() as f64 / 1024.0);
}

/// The same move on its group's bytes.
fn on_bytes(port: &mut dyn Port, case: &Single) {
    let packed = case.packed().expect("a good call has rows");
    let mut lent = packed.lent.clone();
    line("  on bytes", || port.packed_step(packed.step(&mut lent)));
}

/// The same move by its three steps.
fn in_steps(case: &Single) {
    let mut side = port::steps().expect("the port is there");
    let (mut task, mut blue) = (Task::of(case), vec![0; case.panel.n]);
    let mut lent = task.lent.clone();
    line("  label", || side.label(task.label(&mut lent, &mut blue)));
    task = task.run(Which::Label, &mut Model).1;
    line("  choose", || side.choose(task.choose(&mut lent.columns)));
    task = task.run(Which::Choose, &mut Model).1;
    line("  write", || {
        side.write(task.write(&mut lent.spins, &mut lent.totals))
    });
}

/// What an SW move of eight made.
fn vendor(port: &mut dyn Port, rand: &mut Rand, mode: Mode) {
    let panel = timing::panel(rand, mode, Form::Sw, 4, 8);
    let case = timing::single(rand, panel, 8);
    let pair = Vendored::of(&case, &case.run(&mut Model).1);
    let mut rows = pair.rows.clone();
    let name = format!("{} check", mode.name());
    line(&name, || port.check_vendor(pair.call(&mut rows)));
}

fn run(port: &mut dyn Port) {
    let mut rand = Rand::new(1);
    let mut most = |mode: Mode, form: Form| {
        let members = mode.most_members(form);
        let panel = timing::panel(&mut rand, mode, form, 4, 64);
        let case = timing::single(&mut rand, panel, members);
        let mut lent = case.lent.clone();
        let name = format!("{} {}", mode.name(), form.name());
        line(&name, || port.step(case.step(&mut lent)));
        on_bytes(port, &case);
        let kept = kept(&case);
        let mut lent = kept.lent.clone();
        line("  its totals", || port.step(kept.step(&mut lent)));
        on_bytes(port, &kept);
        in_steps(&kept);
        let case = timing::swept(&mut rand, mode, form, 4, members);
        let mut lent = case.lent.clone();
        line("  its sweep", || port.sweep(case.sweep(&mut lent)));
        test_alone(&case);
        if Coding::Numbers.numbers(mode, form) {
            let panel = timing::panel(&mut rand, mode, form, 4, 64);
            let case = timing::single(&mut rand, panel, 5).by_number();
            let mut lent = case.lent.clone();
            line("  by number", || port.step(case.step(&mut lent)));
            let case = timing::swept(&mut rand, mode, form, 4, 5).by_number();
            let mut lent = case.lent.clone();
            line("  its sweep", || port.sweep(case.sweep(&mut lent)));
        }
    };
    for mode in Mode::ALL {
        Form::ALL.iter().for_each(|&form| most(mode, form));
    }
    vendor(port, &mut rand, Mode::Perm);
    vendor(port, &mut rand, Mode::Gperm);
    let panel = timing::panel(&mut rand, Mode::Jorg, Form::Observe, 4, 64);
    let case = timing::single(&mut rand, panel, 2);
    line("meter", || port.energy(case.meter(63)));
    let (fwd, holds, counted) = (torus(4), vec![1; 4 * N], vec![1; N]);
    let (mut labels, mut counts) = (vec![0; N], vec![0; N + 1]);
    let (mut sizes, mut found) = ([0; 4], [0]);
    let call = Label {
        n: N,
        d: 4,
        fwd: &fwd,
        holds: &holds,
        counted: &counted,
        labels: &mut labels,
        counts: &mut counts,
        sizes: &mut sizes,
        found: &mut found,
    };
    line("labelling", || port.label(call));
    #[cfg(port)]
    {
        draws();
        edges();
    }
}

/// The test of a sweep without the sweep. What the side makes for the call is not on the stack.
fn test_alone(case: &Swept) {
    let mut side = port::steps().expect("the port is there");
    let mut lent = case.lent.clone();
    line("  its test", || side.test_sweep(&case.sweep(&mut lent)));
}

#[cfg(port)]
fn draws() {
    let mut source = tsorvenk::Source::new([1, 2, 3, 4]).unwrap();
    let mut rows = vec![0; 8 * N];
    line("rows drawn", || source.wolff_permutation(8, &mut rows));
    line("flips drawn", || source.fill_flips(&mut rows));
}

/// The largest list, written and read.
#[cfg(port)]
fn edges() {
    let (n, d, fwd) = (N, 4, torus(4));
    let bwd = tsorvenk_runs::lattices::backward(n, d, &fwd);
    let (mut couplings, mut text) = (vec![-1_000_000; n * d], vec![0; tsorvenk::EDGES_ROOM]);
    let call = tsorvenk::WriteEdges {
        n,
        d,
        fwd: &fwd,
        bwd: &bwd,
        couplings: &couplings,
        text: &mut text,
    };
    line("list written", || {
        tsorvenk::write_edges(call).unwrap().len()
    });
    let call = tsorvenk::ReadEdges {
        n,
        d,
        fwd: &fwd,
        bwd: &bwd,
        text: &text,
        couplings: &mut couplings,
    };
    line("list read", || tsorvenk::read_edges(call).unwrap());
}

// The main thread's stack has room for the paint: eight times as much is usual.
fn main() {
    match port::linked() {
        Some(mut port) => run(port.as_mut()),
        None => println!("port: left out, its static library was not found when this was built"),
    }
}
