//! What is refused where a sweep's tasks are taken apart: each number of the test and of each step, with every buffer as it was, and a
//! refused sweep takes no step.
mod one_task;
mod sweeps;

use one_task::*;
use sweeps::*;
use tsorvenk::*;

fn refusal<T>(number: u8) -> Result<T, Refusal> {
    Err(Refusal { number })
}

/// A change, and the number that each of the three steps then gives, in every mode and form that says so.
type Change = (&'static str, fn(&mut One), fn(Mode, Form) -> [u8; 3]);

fn drawn(mode: Mode) -> bool {
    matches!(mode, Mode::Jorg | Mode::Cmr)
}

fn permutes(mode: Mode) -> bool {
    matches!(mode, Mode::Perm | Mode::Gperm)
}

fn one_cluster(form: Form) -> bool {
    matches!(form, Form::Wolff | Form::Grow)
}

/// The number where it is taken, else 0.
fn when(taken: bool, number: u8) -> u8 {
    if taken {
        number
    } else {
        0
    }
}

const OBSERVE: Form = Form::Observe;
const GROW: Form = Form::Grow;

#[rustfmt::skip]
const CHANGES: &[Change] = &[
    ("no site", |one| one.n = 0, |_, _| [1; 3]),
    ("too many sites", |one| one.n = 4097, |_, _| [1; 3]),
    ("no direction", |one| one.d = 0, |_, _| [1; 3]),
    ("five directions", |one| one.d = 5, |_, _| [1; 3]),
    ("one member", |one| one.members = 1, |_, _| [1; 3]),
    ("nine members", |one| one.members = 9, |_, _| [1; 3]),
    ("three members", |one| one.members = 3, |mode, form| match mode {
        Mode::Cmr => [1; 3],
        Mode::Houd if form != OBSERVE => [15; 3],
        _ => [2; 3],
    }),
    ("a short row", |one| { one.rows.pop(); }, |_, _| [2; 3]),
    ("short pins", |one| { one.pins.pop(); }, |_, _| [2, 2, 0]),
    ("a short fwd", |one| { one.fwd.pop(); }, |_, form| [2, 0, when(form != OBSERVE, 2)]),
    ("a long bwd", |one| one.bwd.push(0), |_, form| [2, 0, when(form != OBSERVE, 2)]),
    ("short couplings", |one| { one.couplings.pop(); }, |mode, form| [when(drawn(mode), 2), 0, when(form != OBSERVE, 2)]),
    ("short cuts", |one| { one.cuts.pop(); }, |mode, _| [when(drawn(mode), 2), 0, 0]),
    ("short flips", |one| { one.flips.pop(); }, |mode, form| {
        let taken = when(form == Form::Sw && !permutes(mode), 2);
        [taken, taken, 0]
    }),
    ("short permutations", |one| { one.perms.pop(); }, |mode, form| {
        let taken = when(form != OBSERVE && permutes(mode), 2);
        [taken, taken, 0]
    }),
    ("no grey number", |one| { one.greys.pop(); }, |mode, form| {
        let taken = when(form != OBSERVE && mode == Mode::Cmr, 2);
        [taken, taken, 0]
    }),
    ("short labels", |one| { one.labels.pop(); }, |_, form| [when(form != GROW, 2), when(form != GROW && form != OBSERVE, 2), 0]),
    ("long grey labels", |one| one.grey_labels.push(0), |mode, form| {
        let taken = when(mode == Mode::Cmr && form != GROW && form != OBSERVE, 2);
        [taken, taken, 0]
    }),
    ("short counts", |one| { one.counts.pop(); }, |_, form| [when(form != GROW, 2), 0, 0]),
    ("short sizes", |one| { one.sizes.pop(); }, |_, form| [when(form != GROW, 2), 0, 0]),
    ("found nowhere", |one| { one.found.pop(); }, |_, form| [when(form != GROW, 2), 0, 0]),
    ("grey found twice", |one| one.grey_found.push(9), |mode, form| {
        [when(mode == Mode::Cmr && form != GROW && form != OBSERVE, 2), 0, 0]
    }),
    ("short member sites", |one| { one.member_sites.pop(); }, |_, form| [when(form == GROW, 2); 3]),
    ("short blue", |one| { one.blue.pop(); }, |mode, form| {
        let taken = when(form == GROW && mode == Mode::Cmr, 2);
        [taken, taken, 0]
    }),
    ("a short area", |one| { one.area.pop(); }, |_, _| [0, 2, 2]),
    ("short totals", |one| { one.totals.pop(); }, |_, form| [0, 0, when(form != OBSERVE, 2)]),
    ("no spin", |one| one.rows[5] = 0, |_, _| [3; 3]),
    ("a high bit", |one| one.area[1] = 4, |_, _| [0, 0, 3]),
    ("a high bit of no member", |one| one.area[2] = 255, |_, form| [0, 0, when(form != GROW, 3)]),
    ("a neighbour outside", |one| one.fwd[0] = 3, |_, form| [4, 0, when(form != OBSERVE, 4)]),
    ("tables that are not inverse", |one| one.bwd.swap(0, 1), |_, form| [4, 0, when(form != OBSERVE, 4)]),
    ("a pin that is none", |one| one.pins[2] = 2, |_, _| [4, 4, 0]),
    ("a large coupling", |one| one.couplings[0] = 1_000_001, |mode, form| [when(drawn(mode), 6), 0, when(form != OBSERVE, 6)]),
    ("a low temperature", |one| one.temperature = 0.0, |mode, _| [when(drawn(mode), 7), 0, 0]),
    ("a cut that is no number", |one| one.cuts[1] = f32::NAN, |mode, _| [when(drawn(mode), 8), 0, 0]),
    ("a flip that is none", |one| one.flips[2] = 2, |mode, form| {
        let taken = when(form == Form::Sw && !permutes(mode), 9);
        [taken, taken, 0]
    }),
    ("no permutation", |one| one.perms[0] = 0, |mode, form| {
        let taken = when(form != OBSERVE && permutes(mode), 9);
        [taken, taken, 0]
    }),
    ("a permutation that is the identity", |one| one.perms[..2].copy_from_slice(&[0, 1]), |mode, form| {
        let taken = when(one_cluster(form) && permutes(mode), 9);
        [taken, taken, 0]
    }),
    ("grey number 4", |one| one.greys[0] = 4, |mode, form| {
        let taken = when(form != OBSERVE && mode == Mode::Cmr, 9);
        [taken, taken, 0]
    }),
    ("grey number 0", |one| one.greys[0] = 0, |mode, form| {
        let taken = when(one_cluster(form) && mode == Mode::Cmr, 9);
        [taken, taken, 0]
    }),
    ("a reference outside", |one| one.reference = 3, |mode, _| [when(mode == Mode::Gperm, 9), when(mode == Mode::Gperm, 9), 0]),
    ("a label outside", |one| one.labels[2] = 3, |_, form| [0, when(form != GROW && form != OBSERVE, 9), 0]),
    ("a grey label outside", |one| one.grey_labels[0] = u32::MAX, |mode, form| {
        [0, when(mode == Mode::Cmr && form != GROW && form != OBSERVE, 9), 0]
    }),
    ("a member byte", |one| one.member_sites[0] = 2, |_, form| [0, when(form == GROW, 9), when(form == GROW, 9)]),
    ("a blue byte", |one| one.blue[0] = 2, |mode, form| [0, when(form == GROW && mode == Mode::Cmr, 9), 0]),
    ("a seed outside", |one| one.seed = 3, |_, form| [when(one_cluster(form), 10), when(one_cluster(form), 10), 0]),
    ("a seed that does not act", |one| one.seed = 2, |mode, form| [when(one_cluster(form) && mode != Mode::Cmr, 10), 0, 0]),
    ("a large total", |one| one.totals[1] = -16_384_000_001, |_, form| [0, 0, when(form != OBSERVE, 14)]),
];

#[test]
fn each_step_refuses_what_it_takes() {
    for mode in Mode::ALL {
        for form in Form::ALL {
            for step in 0..3 {
                assert_eq!(one(mode, form).refused(step), 0, "{mode:?} {form:?} {step}");
            }
            for (name, change, expected) in CHANGES {
                let mut changed = one(mode, form);
                change(&mut changed);
                let numbers = [0, 1, 2].map(|step| changed.refused(step));
                assert_eq!(numbers, expected(mode, form), "{mode:?} {form:?}: {name}");
                // where no totals are kept the last step takes neither tables nor couplings nor totals
                changed.keeps = Keeps::Nothing;
                let number = match numbers[2] {
                    4 | 6 | 14 => 0,
                    2 if [
                        "a short fwd",
                        "a long bwd",
                        "short couplings",
                        "short totals",
                    ]
                    .contains(name) =>
                    {
                        0
                    }
                    number => number,
                };
                assert_eq!(changed.refused(2), number, "{mode:?} {form:?}: {name}");
            }
        }
    }
}

/// Two changes at once, the second of any kind: the first test in the order that one of them fails decides.
#[test]
fn the_first_test_decides() {
    let order = [1, 15, 2, 3, 4, 6, 7, 8, 9, 10, 14];
    let place = |number: u8| order.iter().position(|&of| of == number);
    // two changes of one thing leave the second
    let alike = |one: &str, other: &str| {
        let both = |word: &&str| one.contains(word) && other.contains(word);
        one == other
            || ["seed", "grey number", "permutation"]
                .iter()
                .any(|word| both(&word))
    };
    let contents = CHANGES.iter().skip_while(|change| change.0 != "no spin");
    for (first, change, _) in contents {
        for (second, other, _) in CHANGES.iter().filter(|other| !alike(first, other.0)) {
            for (mode, form) in Mode::ALL
                .into_iter()
                .flat_map(|mode| Form::ALL.map(|form| (mode, form)))
            {
                let [mut one, mut two, mut both] = [(); 3].map(|()| one(mode, form));
                change(&mut one);
                other(&mut two);
                change(&mut both);
                other(&mut both);
                for step in 0..3 {
                    let expected = [&one, &two]
                        .map(|of| of.refused(step))
                        .into_iter()
                        .filter(|&number| number > 0)
                        .min_by_key(|&number| place(number));
                    assert_eq!(
                        both.refused(step),
                        expected.unwrap_or(0),
                        "{mode:?} {form:?} {step}: {first}, {second}"
                    );
                }
            }
        }
    }
}

#[test]
fn a_refused_sweep_takes_no_step() {
    let mut drawn = Drawn(99);
    let changes: [(u8, fn(&mut Panel, &mut Given)); 12] = [
        (2, |panel, _| panel.pins = Some(vec![0; 5])),
        (3, |panel, _| panel.owners[0] = 2),
        (1, |_, given| given.members = 9),
        (15, |_, given| (given.mode, given.members) = (Mode::Houd, 3)),
        (2, |_, given| given.flips.truncate(5)),
        (3, |panel, given| {
            panel.spins[given.order[4] as usize * SITES] = 0
        }),
        (4, |panel, _| panel.fwd.swap(0, 1)),
        (5, |_, given| given.order[0] = given.order[1]),
        (6, |panel, _| panel.couplings[3] = i32::MIN),
        (7, |_, given| given.temperatures[1] = 0.0),
        (8, |_, given| given.cuts[0] = -1.0),
        (14, |panel, given| {
            panel.totals[given.order[4] as usize] = i64::MAX
        }),
    ];
    for (number, change) in changes {
        let mut panel = Panel::drawn(&mut drawn, [15, 3], Some(6));
        let mut given = given(&mut drawn, &panel, Mode::Jorg, Form::Sw, 2);
        panel.ready(&given);
        change(&mut panel, &mut given);
        assert_eq!(swept(&panel, &given).0, refusal(number));
        let before = lent(&given);
        let mut after = before.clone();
        let tested = call(&panel, &given, &mut after).test(&panel.spins, &panel.totals);
        assert_eq!(tested.map(|_| ()), refusal(number));
        assert_eq!(after, before);
        let mut spins = panel.spins.clone();
        let mut totals = panel.totals.clone();
        let whole = Sweep {
            spins: &mut spins,
            totals: &mut totals,
            ..call(&panel, &given, &mut after)
        };
        assert_eq!(test_sweep(&whole), refusal(number));
        assert_eq!((after, spins, totals), (before, panel.spins, panel.totals));
    }
}
