//! Request 14/14 on drawn sweeps: their tasks' steps in shuffled orders, made by the model, and where it is there by the port or by both in turn, end
//! in what the sweep as one call ends in; what is refused takes no step.
use calls::{Form, Mode, SweepAnswer};
use tsorvenk_runs::case::Swept;
use tsorvenk_runs::lattices::Size;
use tsorvenk_runs::make;
use tsorvenk_runs::model::Model;
use tsorvenk_runs::port;
use tsorvenk_runs::rand::Rand;
use tsorvenk_runs::steps::{self, Steps};

/// The model, the port, and both.
fn all_sides() -> Vec<Vec<Box<dyn Steps>>> {
    let model = || -> Box<dyn Steps> { Box::new(Model) };
    match (port::steps(), port::steps()) {
        (Some(one), Some(other)) => vec![vec![model()], vec![one], vec![model(), other]],
        _ => vec![vec![model()]],
    }
}

fn agree(case: &Swept, rand: &mut Rand) -> SweepAnswer {
    let expected = case.run(&mut Model);
    for mut sides in all_sides() {
        let found = steps::run(case, rand, &mut sides);
        assert!(found == expected, "{case:?}");
    }
    expected.0
}

#[test]
fn every_order_ends_as_the_sweep_does() {
    let mut counts = [0; 3];
    for mode in Mode::ALL {
        for form in Form::ALL {
            for k in 0..60 {
                let mut rand = Rand::of(&[14, mode as u64, form as u64, k]);
                let size = if k % 4 == 0 { Size::Small } else { Size::Tiny };
                let case = make::swept(&mut rand, mode, form, size);
                match agree(&case, &mut rand) {
                    SweepAnswer::Swept { idle, moved, held } => {
                        let of = [idle, moved, held];
                        counts.iter_mut().zip(of).for_each(|(sum, of)| *sum += of);
                    }
                    SweepAnswer::Refused(number) => panic!("refused with {number}: {case:?}"),
                }
            }
        }
    }
    assert!(counts.iter().all(|&count| count > 100), "{counts:?}");
}

#[test]
fn a_refused_sweep_takes_no_step() {
    for mode in Mode::ALL {
        for form in Form::ALL {
            let mut rand = Rand::of(&[15, mode as u64, form as u64]);
            let case = make::swept(&mut rand, mode, form, Size::Tiny);
            let mut refused = |number: u8, change: &dyn Fn(&mut Swept)| {
                let mut case = case.clone();
                change(&mut case);
                assert_eq!(agree(&case, &mut rand), SweepAnswer::Refused(number));
            };
            refused(2, &|case| case.panel.owners.push(0));
            refused(3, &|case| case.panel.team = 2);
            refused(1, &|case| case.t += 1);
            refused(2, &|case| case.order.push(0));
            refused(3, &|case| case.lent.spins[0] = 0);
            refused(4, &|case| case.panel.fwd[0] = case.panel.n as u32);
            refused(4, &|case| case.panel.pins[0] = 2);
            refused(5, &|case| case.order[0] = case.order[1]);
            refused(9, &|case| case.masks[0] = 2);
        }
    }
}
