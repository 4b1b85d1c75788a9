//! What a caller who pins sites may rely on: what is left out pins nothing, a component with a pinned site does not move and every
//! other does, a held seed is told, and what is refused.
use tsorvenk::*;

/// Sites 0 and 1 are each other's neighbours, and so are 2 and 3; site 4 is its own.
const FWD: [u32; 5] = [1, 0, 3, 2, 4];

#[derive(Clone, Debug, PartialEq)]
struct Lent {
    spins: [i8; 10],
    totals: [i64; 2],
    labels: [u32; 5],
    grey_labels: [u32; 5],
    counts: [u32; 6],
    sizes: [u32; 4],
    member_sites: [u8; 5],
    found: [u32; 1],
    grey_found: [u32; 1],
}

/// Two systems that differ at every site.
const LENT: Lent = Lent {
    spins: [1, 1, 1, 1, 1, -1, -1, -1, -1, -1],
    totals: [0; 2],
    labels: [9; 5],
    grey_labels: [9; 5],
    counts: [9; 6],
    sizes: [9; 4],
    member_sites: [9; 5],
    found: [9],
    grey_found: [9],
};

/// A call in which all components are chosen to move; in the modes that draw, both pairs hold together.
fn call<'a>(mode: Mode, form: Form, pins: Option<&'a [u8]>, lent: &'a mut Lent) -> Step<'a> {
    let sw = form == Form::Sw;
    Step {
        mode,
        form,
        n: 5,
        d: 1,
        s: 2,
        spins: &mut lent.spins,
        totals: &mut lent.totals,
        fwd: &FWD,
        bwd: &FWD,
        pins,
        couplings: &[1, 0, 1, 0, 0],
        group: &[0, 1],
        temperature: 1.0,
        cuts: &[0.0; 5],
        reference: 4,
        flips: &[1; 5],
        perms: if sw {
            &[1, 0, 1, 0, 1, 0, 1, 0, 1, 0]
        } else {
            &[1, 0]
        },
        greys: if sw { &[1; 5] } else { &[1] },
        labels: &mut lent.labels,
        grey_labels: &mut lent.grey_labels,
        counts: &mut lent.counts,
        sizes: &mut lent.sizes,
        member_sites: &mut lent.member_sites,
        found: &mut lent.found,
        grey_found: &mut lent.grey_found,
        ..Default::default()
    }
}

type Answered = (Result<Stepped, Refusal>, Lent);

fn stepped(mode: Mode, form: Form, pins: Option<&[u8]>, seed: usize) -> Answered {
    let mut lent = LENT;
    let answer = step(Step {
        seed,
        ..call(mode, form, pins, &mut lent)
    });
    (answer, lent)
}

/// The second system's spins, whose minus signs have gone where a pair has been exchanged or negated.
fn second(lent: &Lent) -> [i8; 5] {
    std::array::from_fn(|i| lent.spins[5 + i])
}

const FLIPPING: [Mode; 3] = [Mode::Houd, Mode::Pair, Mode::Jorg];
const ONE_CLUSTER: [Form; 2] = [Form::Wolff, Form::Grow];

#[test]
fn pins_left_out_pin_nothing() {
    assert!(Step::default().pins.is_none() && Sweep::default().pins.is_none());
    for mode in Mode::ALL {
        for form in Form::ALL {
            let without = stepped(mode, form, None, 0);
            assert_eq!(without, stepped(mode, form, Some(&[0; 5]), 0));
            assert!(without.0.is_ok(), "{mode:?} {form:?}");
        }
    }
}

#[test]
fn a_component_with_a_pin_is_held_and_no_other() {
    for mode in FLIPPING {
        let (answer, lent) = stepped(mode, Form::Sw, Some(&[0, 1, 0, 0, 0]), 0);
        assert_eq!(answer, Ok(Stepped::Moved));
        assert_eq!(second(&lent), [-1, -1, 1, 1, -1]);
        // it is labelled and counted as ever
        let free = stepped(mode, Form::Sw, None, 0).1;
        assert_eq!(second(&free), [1, 1, 1, 1, -1]);
        let spins = lent.spins;
        assert_eq!(lent, Lent { spins, ..free });
    }
    let (answer, lent) = stepped(Mode::Perm, Form::Sw, Some(&[0, 0, 1, 0, 1]), 0);
    assert_eq!(
        (answer, second(&lent)),
        (Ok(Stepped::Moved), [1, 1, -1, -1, -1])
    );
}

/// All is held, and SW has moved all the same; to observe is what it is without pins.
#[test]
fn sw_and_observe_are_never_held() {
    for mode in Mode::ALL.into_iter().filter(|&mode| mode != Mode::Gperm) {
        let (answer, lent) = stepped(mode, Form::Sw, Some(&[1; 5]), 0);
        assert_eq!((answer, lent.spins), (Ok(Stepped::Moved), LENT.spins));
        let [with, without] =
            [Some(&[1; 5][..]), None].map(|pins| stepped(mode, Form::Observe, pins, 0));
        assert_eq!(with, without);
        assert_eq!(with.0, Ok(Stepped::Moved));
    }
}

#[test]
fn a_held_seed_is_told_and_outputs_are_written() {
    for mode in [Mode::Houd, Mode::Pair, Mode::Perm, Mode::Jorg, Mode::Cmr] {
        for form in ONE_CLUSTER {
            let free = stepped(mode, form, None, 0).1;
            let (answer, lent) = stepped(mode, form, Some(&[0, 1, 0, 0, 0]), 0);
            assert_eq!(answer, Ok(Stepped::Held), "{mode:?} {form:?}");
            let spins = LENT.spins;
            assert_eq!(lent, Lent { spins, ..free });
            match form {
                Form::Grow => assert_eq!(lent.member_sites, [1, 1, 0, 0, 0]),
                _ => assert_eq!((lent.labels, lent.found), ([0, 0, 1, 1, 2], [3])),
            }
            let other = stepped(mode, form, Some(&[0, 1, 0, 0, 0]), 2);
            assert_eq!(other, stepped(mode, form, None, 2));
            assert_eq!(other.0, Ok(Stepped::Moved));
        }
    }
}

/// A red bond joins two blue sites to two others, of which one is pinned: blue flips, and grey does not.
#[test]
fn where_only_the_grey_one_is_held_blue_flips() {
    let moved = |form: Form, pins: &[u8]| {
        let mut spins = [1, 1, 1, 1, 1, 1, -1, -1];
        let (mut labels, mut grey_labels, mut counts, mut sizes) = ([9; 4], [9; 4], [9; 5], [9; 4]);
        let (mut member_sites, mut found, mut grey_found) = ([9; 4], [9], [9]);
        let answer = step(Step {
            mode: Mode::Cmr,
            form,
            n: 4,
            d: 1,
            s: 2,
            spins: &mut spins,
            fwd: &[1, 2, 3, 0],
            bwd: &[3, 0, 1, 2],
            pins: Some(pins),
            couplings: &[1, 1, 1, 0],
            group: &[0, 1],
            temperature: 1.0,
            cuts: &[0.0; 4],
            flips: &[1; 4],
            greys: if form == Form::Sw { &[2; 4] } else { &[2] },
            labels: &mut labels,
            grey_labels: &mut grey_labels,
            counts: &mut counts,
            sizes: &mut sizes,
            member_sites: &mut member_sites,
            found: &mut found,
            grey_found: &mut grey_found,
            ..Default::default()
        });
        (answer, spins, member_sites)
    };
    for form in ONE_CLUSTER {
        let (answer, spins, members) = moved(form, &[0, 0, 0, 1]);
        assert_eq!(answer, Ok(Stepped::Moved));
        assert_eq!(spins, [-1, -1, 1, 1, -1, -1, -1, -1]);
        assert_eq!(members, if form == Form::Grow { [1; 4] } else { [9; 4] });
        assert_eq!(moved(form, &[0; 4]).1, [-1, -1, 1, 1, 1, 1, 1, 1]);
        let (answer, spins, members) = moved(form, &[0, 1, 0, 0]);
        assert_eq!(
            (answer, spins),
            (Ok(Stepped::Held), [1, 1, 1, 1, 1, 1, -1, -1])
        );
        assert_eq!(members, if form == Form::Grow { [1; 4] } else { [9; 4] });
    }
    // both blue ones are chosen, and one of them is held
    let (answer, spins, _) = moved(Form::Sw, &[0, 0, 0, 1]);
    assert_eq!(
        (answer, spins),
        (Ok(Stepped::Moved), [-1, -1, 1, 1, -1, -1, -1, -1])
    );
}

/// What does not act cannot be held, and a pin there holds nothing else.
#[test]
fn idle_comes_before_held() {
    for form in ONE_CLUSTER {
        let mut lent = LENT;
        lent.spins = [1; 10];
        let idle = call(Mode::Pair, form, Some(&[1; 5]), &mut lent);
        assert_eq!(step(idle), Ok(Stepped::Idle));
        let mut lent = LENT;
        lent.spins[9] = 1;
        let beside = call(Mode::Pair, form, Some(&[0, 0, 0, 0, 1]), &mut lent);
        assert_eq!(step(beside), Ok(Stepped::Moved));
        let mut lent = LENT;
        lent.spins[9] = 1;
        let pinned = Step {
            seed: 4,
            ..call(Mode::Pair, form, Some(&[0, 0, 0, 0, 1]), &mut lent)
        };
        assert_eq!(step(pinned), Err(Refusal { number: 10 }));
    }
}

#[test]
fn totals_stay_where_all_is_held() {
    for form in ONE_CLUSTER {
        for (pins, expected) in [
            (&[0, 1, 0, 0, 0], Stepped::Held),
            (&[0, 0, 1, 0, 0], Stepped::Moved),
        ] {
            let mut lent = LENT;
            lent.totals = [-2, -2];
            let kept = Step {
                keeps: Keeps::Totals,
                ..call(Mode::Cmr, form, Some(pins), &mut lent)
            };
            assert_eq!(step(kept), Ok(expected));
            // a whole pair turns or stays: the energies are what they were
            assert_eq!(lent.totals, [-2, -2]);
            assert_eq!(lent.spins == LENT.spins, expected == Stepped::Held);
        }
    }
}

#[test]
fn what_is_refused() {
    for mode in Mode::ALL {
        for form in Form::ALL {
            for byte in [2, 3, 128, 255] {
                let pins = [0, 1, 0, 1, byte];
                let refused = (Err(Refusal { number: 4 }), LENT);
                assert_eq!(stepped(mode, form, Some(&pins), 0), refused);
            }
            for length in [0, 1, 4, 6, 4096] {
                let refused = (Err(Refusal { number: 2 }), LENT);
                assert_eq!(stepped(mode, form, Some(&vec![0; length]), 0), refused);
                // lengths come before bytes
                assert_eq!(stepped(mode, form, Some(&vec![2; length]), 0), refused);
            }
        }
    }
    // a spin comes before a pin, and a system behind it
    let mut lent = LENT;
    lent.spins[0] = 0;
    let faulty = call(Mode::Pair, Form::Wolff, Some(&[2; 5]), &mut lent);
    assert_eq!(step(faulty), Err(Refusal { number: 3 }));
    let mut lent = LENT;
    let twice = Step {
        group: &[1, 1],
        ..call(Mode::Pair, Form::Wolff, Some(&[2; 5]), &mut lent)
    };
    assert_eq!(step(twice), Err(Refusal { number: 4 }));
    // more sites than there may be, with pins and without
    for pins in [None, Some(&[0; 5][..])] {
        for n in [0, 4097, usize::MAX] {
            let mut lent = LENT;
            let many = Step {
                n,
                ..call(Mode::Pair, Form::Wolff, pins, &mut lent)
            };
            assert_eq!((step(many), lent), (Err(Refusal { number: 1 }), LENT));
        }
    }
}

/// Three groups of two on two sites that are their own neighbours: the first acts at the first site, the second at the second, the
/// third nowhere.
fn swept(
    form: Form,
    pins: Option<&[u8]>,
    spins: &mut [i8],
    members: &mut [u8],
) -> Result<Swept, Refusal> {
    let (mut labels, mut counts, mut sizes, mut found) = ([9; 6], [9; 9], [9; 12], [9; 3]);
    sweep(Sweep {
        mode: Mode::Pair,
        form,
        n: 2,
        d: 1,
        s: 6,
        t: 1,
        r: 6,
        members: 2,
        spins,
        fwd: &[0, 1],
        bwd: &[0, 1],
        pins,
        order: &[0, 1, 2, 3, 4, 5],
        masks: &[0],
        seeds: &[0, 1, 0],
        flips: &[1; 6],
        labels: &mut labels,
        counts: &mut counts,
        sizes: &mut sizes,
        member_sites: members,
        found: &mut found,
        ..Default::default()
    })
}

#[test]
fn a_sweep_counts_what_is_held() {
    const SPINS: [i8; 12] = [1, 1, -1, 1, 1, 1, 1, -1, 1, 1, 1, 1];
    let counts = |form: Form, pins: Option<&[u8]>| {
        let (mut spins, mut members) = (SPINS, [9; 6]);
        let answer = swept(form, pins, &mut spins, &mut members);
        let counts = answer.map(|swept| [swept.idle, swept.moved, swept.held]);
        (counts, spins, members)
    };
    for form in ONE_CLUSTER {
        for unpinned in [None, Some(&[0, 0][..])] {
            assert_eq!(counts(form, unpinned).0, Ok([1, 2, 0]));
        }
        let (answer, spins, members) = counts(form, Some(&[1, 0]));
        assert_eq!(answer, Ok([1, 1, 1]));
        assert_eq!(spins, [1, 1, -1, 1, 1, -1, 1, 1, 1, 1, 1, 1]);
        if form == Form::Grow {
            assert_eq!(members, [1, 0, 0, 1, 0, 0]);
        }
        let (answer, spins, _) = counts(form, Some(&[1, 1]));
        assert_eq!((answer, spins), (Ok([1, 0, 2]), SPINS));
    }
    for form in [Form::Sw, Form::Observe] {
        let (answer, spins, _) = counts(form, Some(&[1, 1]));
        assert_eq!((answer, spins), (Ok([1, 2, 0]), SPINS));
    }
    for form in Form::ALL {
        let refused = |number: u8| (Err(Refusal { number }), SPINS, [9; 6]);
        assert_eq!(counts(form, Some(&[0, 2])), refused(4));
        for pins in [&[][..], &[0], &[2], &[0; 3]] {
            assert_eq!(counts(form, Some(pins)), refused(2));
        }
    }
}
