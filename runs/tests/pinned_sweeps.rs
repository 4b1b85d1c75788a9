//! Request 9/14 by hand in sweeps: their three counts, what is refused, and the numbers that C gets.
mod common;

use calls::Form;
use calls::Form::{Grow, Observe, Sw, Wolff};
use calls::Mode::Pair;
use common::*;
use tsorvenk_runs::case::{Lent, Swept};
use tsorvenk_runs::grown;
use tsorvenk_runs::model::{lengths, Model};
use tsorvenk_runs::raw;

/// Two sites apart, at three temperatures: only the first acts, only the second, none.
fn three_tasks(form: Form) -> Swept {
    let one = call(Pair, form, I2, &["++", "-+", "++", "+-", "++", "++"]);
    let exact = lengths(Pair, form, 2, 1, 2, 3);
    let mut case = sweep(Pair, form, 3, &["+"; 6]);
    case.lent = Lent::filled(exact, one.lent.spins, 9, 9);
    case.panel = one.panel;
    case.seeds = vec![0, 1, 0];
    case.choices.flips = vec![1; exact.flips.unwrap_or(0)];
    case
}

#[test]
fn a_sweep_counts_what_is_held() {
    for form in [Wolff, Grow] {
        let mut case = three_tasks(form);
        let counted = |case: &Swept| {
            assert_eq!(grown::swept(case, &mut Model), None);
            run_sweep(case).0
        };
        assert_eq!(counted(&case), swept(1, 2, 0));
        case.panel.pins = vec![1, 0];
        assert_eq!(counted(&case), swept(1, 1, 1));
        let lent = run_sweep(&case).1;
        let after = ["++", "-+", "+-", "++", "++", "++"];
        assert_eq!(lent.spins, spins(&after));
        match form {
            Grow => assert_eq!(lent.member_sites, [1, 0, 0, 1, 0, 0]),
            _ => assert_eq!(lent.found, [2; 3]),
        }
        case.panel.pins = vec![1, 1];
        assert_eq!(counted(&case), swept(1, 0, 2));
        assert_eq!(run_sweep(&case).1.spins, case.lent.spins);
        case.masks = vec![1, 0, 0];
        assert_eq!(counted(&case), swept(1, 0, 1));
    }
    for form in [Sw, Observe] {
        let mut case = three_tasks(form);
        case.panel.pins = vec![1, 1];
        assert_eq!(run_sweep(&case).0, swept(1, 2, 0));
        assert_eq!(run_sweep(&case).1.spins, case.lent.spins);
    }
}

#[test]
fn refusals_of_sweeps() {
    for form in Form::ALL {
        let good = three_tasks(form);
        for length in [0, 1, 3, 6] {
            let mut case = good.clone();
            case.panel.pins = vec![2; length];
            sweep_refused(&case, 2);
        }
        let mut case = good.clone();
        case.panel.pins = vec![0, 2];
        sweep_refused(&case, 4);
        // masked or not, before the order and after the spins
        case.masks = vec![1; 3];
        sweep_refused(&case, 4);
        case.order[1] = 0;
        sweep_refused(&case, 4);
        case.lent.spins[0] = 0;
        sweep_refused(&case, 3);
    }
}

/// The numbers that C gets, and the three counts.
#[test]
fn as_c_calls() {
    let case = pinned(call(Pair, Wolff, L1, &["+", "-"]), &[1]);
    let mut lent = case.lent.clone();
    if let Some(code) = raw::step([1, 1, 0, 0], case.step(&mut lent)) {
        assert_eq!((code, lent.spins), (66, case.lent.spins.clone()));
    }
    let mut case = three_tasks(Wolff);
    case.panel.pins = vec![0, 1];
    for (length, expected) in [(0, 2), (1, 2), (2, 2), (3, 0), (4, 2)] {
        let (mut lent, mut outcomes) = (case.lent.clone(), vec![9; length]);
        let code = raw::sweep([1, 1, 0, 0], case.sweep(&mut lent), &mut outcomes);
        match code {
            Some(0) => assert_eq!((expected, outcomes), (0, vec![1, 1, 1])),
            Some(code) => assert_eq!(
                (code, lent, outcomes),
                (expected, case.lent.clone(), vec![9; length])
            ),
            None => {}
        }
    }
}
