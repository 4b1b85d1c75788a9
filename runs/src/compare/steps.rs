//! Tasks in any order (14/14): sweeps by the steps of their tasks, held to the sweep as one call; and each step by itself, beside the model's, on what
//! the step before it left and on any lists and columns.
use super::{differ, differ_lent, found, report, Found, Line};
use crate::case::{Single, Swept};
use crate::model::{self, Model};
use crate::port;
use crate::rand::Rand;
use crate::steps::{self, spelt_out, Steps, Task, Which};
use calls::{Answer, Port, SweepAnswer};

/// The model alone, and where it is there the port, and both in turn.
fn all_sides() -> Vec<(&'static str, Vec<Box<dyn Steps>>)> {
    let model = || -> Box<dyn Steps> { Box::new(Model) };
    let mut sides = vec![("model", vec![model()])];
    if let (Some(one), Some(other)) = (port::steps(), port::steps()) {
        sides.push(("port", vec![one]));
        sides.push(("model and port", vec![model(), other]));
    }
    sides
}

/// A good sweep by its tasks' steps, in another shuffled order for each side.
pub fn swept_by_steps(
    case: &Swept,
    rand: &mut Rand,
    port: Option<&mut Box<dyn Port>>,
    line: &mut Line,
) -> Option<Found> {
    let (answer, lent) = case.run(&mut Model);
    let mut text = String::new();
    if let Some(port) = port {
        let by_port = case.run(port.as_mut());
        differ(&mut text, "answer of the port", answer, by_port.0);
        differ_lent(&mut text, &lent, &by_port.1);
    }
    match answer {
        SweepAnswer::Refused(number) => text += &format!("  a good call is refused: {number}\n"),
        SweepAnswer::Swept { idle, moved, held } => {
            line.step_tasks += (idle + moved + held) as usize;
        }
    }
    for (name, mut sides) in all_sides() {
        line.step_sweeps += 1;
        let by_steps = steps::run(case, rand, &mut sides);
        differ(&mut text, &format!("answer by {name}"), answer, by_steps.0);
        differ_lent(&mut text, &lent, &by_steps.1);
    }
    weigh("a sweep by its steps", case, text, case.panel.n, line)
}

/// A damaged sweep: the test answers what the sweep answers.
pub fn damaged_test(
    case: &Swept,
    port: Option<&mut Box<dyn Port>>,
    line: &mut Line,
) -> Option<Found> {
    let case = spelt_out(case);
    let number = |answer: SweepAnswer| match answer {
        SweepAnswer::Refused(number) => number,
        SweepAnswer::Swept { .. } => 0,
    };
    let mut lent = case.lent.clone();
    let by_model = model::test_sweep(&case.sweep(&mut lent));
    line.step_refused[0][usize::from(by_model)] += 1;
    let mut text = String::new();
    let swept = number(case.run(&mut Model).0);
    differ(&mut text, "the model's sweep", by_model, swept);
    if let (Some(port), Some(mut steps)) = (port, port::steps()) {
        let tested = steps.test_sweep(&case.sweep(&mut lent));
        differ(&mut text, "the port's test", by_model, tested);
        let swept = number(case.run(port.as_mut()).0);
        differ(&mut text, "the port's sweep", by_model, swept);
    }
    differ_lent(&mut text, &case.lent, &lent);
    weigh(
        "a damaged sweep's test",
        &case,
        text,
        case.lent.spins.len(),
        line,
    )
}

fn differ_task(text: &mut String, model: &Task, other: &Task) {
    differ_lent(text, &model.lent, &other.lent);
    differ(text, "blue", &model.blue, &other.blue);
}

/// One step on every side: what it answers and leaves, a refusal all that it was lent.
fn one(task: &Task, which: Which, text: &mut String) -> (Answer, Task) {
    let (answer, after) = task.run(which, &mut Model);
    if let Answer::Refused(_) = answer {
        differ_task(text, task, &after);
    }
    if let Some(mut port) = port::steps() {
        let (by_port, left) = task.run(which, port.as_mut());
        differ(text, &format!("answer to {which:?}"), answer, by_port);
        differ_task(text, &after, &left);
    }
    (answer, after)
}

/// A good move as one task: its steps one after the other end in what the move ends in; then each on what the one before it did not leave.
pub fn steps_of(case: &Single, rand: &mut Rand, line: &mut Line) -> Option<Found> {
    let (answer, lent) = case.run(&mut Model);
    let (task, mut text) = (Task::of(case), String::new());
    let (said, labelled) = one(&task, Which::Label, &mut text);
    differ(&mut text, "what label says", answer, said);
    let (_, chosen) = one(&labelled, Which::Choose, &mut text);
    let (_, mut written) = one(&chosen, Which::Write, &mut text);
    // the area is nobody's afterwards
    let after = Task::own(case, &lent);
    written.lent.columns.clone_from(&after.columns);
    differ_lent(&mut text, &after, &written.lent);
    let (told, _) = one(&labelled.told(rand), Which::Choose, &mut text);
    let (drawn, _) = one(&chosen.drawn(rand), Which::Write, &mut text);
    let good = [Answer::Moved; 2];
    differ(&mut text, "any lists and columns", good, [told, drawn]);
    line.steps += 5;
    weigh("a task's steps", &task, text, task.lent.spins.len(), line)
}

/// A step with faults.
pub fn damaged_step(task: &Task, which: Which, line: &mut Line) -> Option<Found> {
    let mut text = String::new();
    let number = match one(task, which, &mut text).0 {
        Answer::Refused(number) => usize::from(number),
        _ => 0,
    };
    line.step_refused[1 + which as usize][number] += 1;
    let what = format!("a damaged {which:?}");
    weigh(&what, task, text, task.lent.spins.len(), line)
}

fn weigh(
    what: &str,
    case: &impl std::fmt::Debug,
    text: String,
    weight: usize,
    line: &mut Line,
) -> Option<Found> {
    let text = match text.is_empty() {
        true => text,
        false => report(what, case, &text),
    };
    found(text, weight, line)
}
