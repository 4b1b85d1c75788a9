//! One case, every side: what differs, as text.
use crate::case::{Lent, Single, Swept};
use crate::grown;
use crate::idle;
use crate::model::{self, Model};
use calls::{Answer, Form, Mode, Port, SweepAnswer};
use published_patched::Branch;
use std::fmt::{Debug, Write};
use std::panic::{catch_unwind, AssertUnwindSafe};

mod coded;
mod houd;
mod labelling;
mod line;
mod packed;
mod pinned;
mod steps;
mod teams;
mod vendor;

pub use houd::{single_of_more, swept_of_more};
pub use labelling::{damaged_labelling, labelling};
pub use line::{keep, Found, Line};
pub use packed::{damaged_layout, damaged_packed};
pub use steps::{damaged_step, damaged_test, steps_of, swept_by_steps};
pub use teams::{shared_single, shared_swept};
pub use vendor::{own_move, vendored};

pub fn differ<T: PartialEq + Debug>(text: &mut String, what: &str, one: T, other: T) {
    if one != other {
        let _ = writeln!(text, "  {what}: {one:?}\n  against {other:?}");
    }
}

pub fn differ_lent(text: &mut String, model: &Lent, other: &Lent) {
    differ(text, "totals", &model.totals, &other.totals);
    differ_untotalled(text, model, other);
}

/// The Rust keeps no totals.
fn differ_untotalled(text: &mut String, model: &Lent, other: &Lent) {
    differ(text, "spins", &model.spins, &other.spins);
    differ(text, "columns", &model.columns, &other.columns);
    differ(text, "labels", &model.labels, &other.labels);
    differ(text, "grey", &model.grey_labels, &other.grey_labels);
    differ(text, "counts", &model.counts, &other.counts);
    differ(text, "sizes", &model.sizes, &other.sizes);
    differ(text, "members", &model.member_sites, &other.member_sites);
    differ(text, "found", &model.found, &other.found);
    differ(text, "grey found", &model.grey_found, &other.grey_found);
}

/// Runs the published Rust; a panic is a difference too.
fn rust<T>(text: &mut String, run: impl FnOnce() -> T) -> Option<T> {
    let answer = catch_unwind(AssertUnwindSafe(run));
    if answer.is_err() {
        let _ = writeln!(text, "  the Rust panics");
    }
    answer.ok()
}

pub fn report(heading: &str, case: &impl Debug, text: &str) -> String {
    format!("{heading}\n{text}  case: {case:?}\n")
}

/// Odd N is outside the published domain of these modes, though their steps take it.
fn odd(mode: Mode, members: usize) -> bool {
    matches!(mode, Mode::Houd | Mode::Pair | Mode::Jorg) && members % 2 == 1
}

fn single_weight(case: &Single) -> usize {
    case.panel.n * (case.panel.d + case.panel.s)
}

/// Without outputs the Rust's one-cluster form grows: that is Wolff's other branch, and the only one of the form that grows.
fn branches(form: Form) -> &'static [Branch] {
    match form {
        Form::Sw | Form::Observe => &[Branch::UnionFind],
        Form::Wolff => &[Branch::UnionFind, Branch::DepthFirst],
        Form::Grow => &[Branch::DepthFirst],
    }
}

/// Depth first the Rust leaves the spins alone to compare, and of a call that grows its members.
fn differ_depth_first(text: &mut String, form: Form, model: &Lent, rust: &Lent) {
    match form {
        Form::Grow => differ_untotalled(text, model, rust),
        _ => differ(text, "depth first", &model.spins, &rust.spins),
    }
}

/// The sides that a call which grows is held to Wolff's on: the model, and the port where it is linked.
fn beside_wolff(
    port: Option<&mut Box<dyn Port>>,
    line: &mut Line,
    differs: impl Fn(&mut dyn Port) -> Option<&'static str>,
) -> String {
    let mut text = String::new();
    line.wolff += 1;
    if let Some(what) = differs(&mut Model) {
        let _ = writeln!(text, "  model: grow and Wolff differ in {what}");
    }
    if let Some(what) = port.and_then(|port| differs(port.as_mut())) {
        let _ = writeln!(text, "  port: grow and Wolff differ in {what}");
    }
    text
}

fn single_rust(case: &Single, answer: Answer, lent: &Lent, line: &mut Line) -> String {
    let mut text = String::new();
    let (mode, form) = (case.panel.mode, case.panel.form);
    for &branch in branches(form) {
        let mut rust_lent = case.lent.clone();
        let run = || {
            let none_acts = published_patched::step(case.step(&mut rust_lent), branch);
            if branch == Branch::UnionFind {
                idle::take_out_of_single(case, &mut rust_lent);
            }
            none_acts
        };
        let Some(none_acts) = rust(&mut text, run) else {
            continue;
        };
        match branch {
            Branch::UnionFind => {
                line.union_find += 1;
                differ_untotalled(&mut text, lent, &rust_lent);
            }
            Branch::DepthFirst => {
                line.depth_first += 1;
                differ_depth_first(&mut text, form, lent, &rust_lent);
            }
        }
        if form.one_cluster() {
            differ(&mut text, "idle", answer == Answer::Idle, none_acts);
        }
    }
    if mode != Mode::Cmr && case.panel.n <= 12 {
        line.acting += 1;
        let mut copy = case.lent.clone();
        let call = case.step(&mut copy);
        let ours = model::active(&call);
        differ(
            &mut text,
            "idle",
            answer == Answer::Idle,
            !ours.contains(&true),
        );
        if let Some(theirs) = rust(&mut text, || published_patched::active(&call)) {
            differ(&mut text, "acting", ours, theirs);
        }
    }
    text
}

fn single_port(case: &Single, answer: Answer, lent: &Lent, port: &mut dyn Port) -> String {
    let mut text = String::new();
    let (port_answer, port_lent) = case.run(port);
    differ(&mut text, "answer", answer, port_answer);
    differ_lent(&mut text, lent, &port_lent);
    for system in [0, case.panel.s / 2, case.panel.s] {
        let (ours, theirs) = (
            Model.energy(case.meter(system)),
            port.energy(case.meter(system)),
        );
        differ(&mut text, "energy", ours, theirs);
    }
    let handed = |side: &mut dyn Port| side.hand_over(case.panel.hand_over(&case.lent));
    differ(&mut text, "hand-over", handed(&mut Model), handed(port));
    text
}

fn count_kept(case: &Single, line: &mut Line) {
    line.kept += usize::from(case.panel.keeping());
    let number = Model.hand_over(case.panel.hand_over(&case.lent));
    line.handed[usize::from(number)] += 1;
}

/// A good single move on every side.
pub fn single(case: &Single, port: Option<&mut Box<dyn Port>>, line: &mut Line) -> Option<Found> {
    let (answer, lent) = case.run(&mut Model);
    let mut text = String::new();
    if let Answer::Refused(number) = answer {
        let _ = writeln!(text, "  the model refuses a good call: {number}");
    }
    line.singles += 1;
    count_kept(case, line);
    line.odd += usize::from(odd(case.panel.mode, case.group.len()));
    line.idle += usize::from(answer == Answer::Idle);
    line.held += usize::from(answer == Answer::Held);
    line.count_pinned(&case.panel);
    if let Some(released) = pinned::single(case, answer, &lent, line) {
        let found = single_rust(&released, answer, &lent, line);
        if !found.is_empty() {
            text += &report("single move, model against Rust", case, &found);
        }
    }
    let mut port = port;
    if let Some(port) = port.as_deref_mut() {
        line.port += 1;
        let found = single_port(case, answer, &lent, port.as_mut());
        if !found.is_empty() {
            text += &report("single move, model against port", case, &found);
        }
    }
    text += &coded::single(case, (answer, &lent), port.as_deref_mut(), line);
    text += &houd::single(case, (answer, &lent), port.as_deref_mut(), line);
    text += &packed::single(case, (answer, &lent), port.as_deref_mut(), line);
    if case.panel.form == Form::Grow {
        let found = beside_wolff(port, line, |side| grown::single(case, side));
        if !found.is_empty() {
            text += &report("single move, grow against Wolff", case, &found);
        }
    }
    found(text, single_weight(case), line)
}

/// One of all small single moves; where its seed does not act the Rust has no such call.
pub fn small(case: &Single, port: Option<&mut Box<dyn Port>>, line: &mut Line) -> Option<Found> {
    line.all_small += 1;
    match case.run(&mut Model).0 {
        Answer::Refused(10) => damaged_single(case, port, line),
        _ => single(case, port, line),
    }
}

fn found(text: String, weight: usize, line: &mut Line) -> Option<Found> {
    line.differences += usize::from(!text.is_empty());
    (!text.is_empty()).then_some(Found { weight, text })
}

fn sweep_rust(case: &Swept, answer: SweepAnswer, lent: &Lent, line: &mut Line) -> String {
    let mut text = String::new();
    let form = case.panel.form;
    let runs = branches(form)
        .iter()
        .flat_map(|&branch| [(branch, true), (branch, false)]);
    for (branch, sequential) in runs {
        let mut rust_lent = case.lent.clone();
        let run = || {
            let call = case.sweep(&mut rust_lent);
            let none_acts = published_patched::sweep(call, branch, sequential);
            if branch == Branch::UnionFind {
                idle::take_out_of_swept(case, &mut rust_lent);
            }
            none_acts
        };
        let Some(none_acts) = rust(&mut text, run) else {
            continue;
        };
        match branch {
            Branch::UnionFind => {
                line.union_find += 1;
                differ_untotalled(&mut text, lent, &rust_lent);
            }
            Branch::DepthFirst => {
                line.depth_first += 1;
                differ_depth_first(&mut text, form, lent, &rust_lent);
            }
        }
        if let (true, SweepAnswer::Swept { idle, .. }) = (form.one_cluster(), answer) {
            let theirs = none_acts.iter().filter(|&&none| none).count();
            differ(&mut text, "idle tasks", idle as usize, theirs);
        }
    }
    text
}

/// A good sweep on every side.
pub fn swept(case: &Swept, port: Option<&mut Box<dyn Port>>, line: &mut Line) -> Option<Found> {
    let (answer, lent) = case.run(&mut Model);
    let mut text = String::new();
    line.sweeps += 1;
    line.kept += usize::from(case.panel.keeping());
    line.odd += usize::from(odd(case.panel.mode, case.members));
    match answer {
        SweepAnswer::Refused(number) => {
            let _ = writeln!(text, "  the model refuses a good call: {number}");
        }
        SweepAnswer::Swept { idle, held, .. } => {
            line.idle += idle as usize;
            line.held += held as usize;
        }
    }
    line.count_pinned(&case.panel);
    if let Some(released) = pinned::swept(case, answer, &lent, line) {
        let found = sweep_rust(&released, answer, &lent, line);
        if !found.is_empty() {
            text += &report("sweep, model against Rust", case, &found);
        }
    }
    let mut port = port;
    if let Some(port) = port.as_deref_mut() {
        line.port += 1;
        let mut found = String::new();
        let (port_answer, port_lent) = case.run(port.as_mut());
        differ(&mut found, "answer", answer, port_answer);
        differ_lent(&mut found, &lent, &port_lent);
        if !found.is_empty() {
            text += &report("sweep, model against port", case, &found);
        }
    }
    text += &coded::swept(case, (answer, &lent), port.as_deref_mut(), line);
    text += &houd::swept(case, (answer, &lent), port.as_deref_mut(), line);
    if case.panel.form == Form::Grow {
        let found = beside_wolff(port, line, |side| grown::swept(case, side));
        if !found.is_empty() {
            text += &report("sweep, grow against Wolff", case, &found);
        }
    }
    found(text, case.panel.n * (case.panel.d + case.panel.s), line)
}

/// A damaged single move: the port must answer as the model, and a refusal leaves every buffer alone.
pub fn damaged_single(
    case: &Single,
    port: Option<&mut Box<dyn Port>>,
    line: &mut Line,
) -> Option<Found> {
    let (answer, lent) = case.run(&mut Model);
    let mut text = String::new();
    line.damaged += 1;
    count_kept(case, line);
    if let Answer::Refused(number) = answer {
        line.refused[usize::from(number)] += 1;
        differ_lent(&mut text, &case.lent, &lent);
    } else {
        line.refused[0] += 1;
    }
    let mut port = port;
    if let Some(port) = port.as_deref_mut() {
        text += &single_port(case, answer, &lent, port.as_mut());
    }
    text += &coded::single(case, (answer, &lent), port.as_deref_mut(), line);
    text += &houd::single(case, (answer, &lent), port.as_deref_mut(), line);
    text += &packed::single(case, (answer, &lent), port.as_deref_mut(), line);
    if case.panel.form == Form::Grow {
        text += &beside_wolff(port, line, |side| grown::single(case, side));
    }
    if !text.is_empty() {
        text = report("damaged single move", case, &text);
    }
    found(text, case.lent.spins.len() + case.panel.fwd.len(), line)
}

pub fn damaged_sweep(
    case: &Swept,
    port: Option<&mut Box<dyn Port>>,
    line: &mut Line,
) -> Option<Found> {
    let (answer, lent) = case.run(&mut Model);
    let mut text = String::new();
    line.damaged += 1;
    if let SweepAnswer::Refused(number) = answer {
        line.refused[usize::from(number)] += 1;
        differ_lent(&mut text, &case.lent, &lent);
    } else {
        line.refused[0] += 1;
    }
    let mut port = port;
    if let Some(port) = port.as_deref_mut() {
        let (port_answer, port_lent) = case.run(port.as_mut());
        differ(&mut text, "answer", answer, port_answer);
        differ_lent(&mut text, &lent, &port_lent);
    }
    text += &coded::swept(case, (answer, &lent), port.as_deref_mut(), line);
    text += &houd::swept(case, (answer, &lent), port.as_deref_mut(), line);
    if case.panel.form == Form::Grow {
        text += &beside_wolff(port, line, |side| grown::swept(case, side));
    }
    if !text.is_empty() {
        text = report("damaged sweep", case, &text);
    }
    found(text, case.lent.spins.len() + case.panel.fwd.len(), line)
}
