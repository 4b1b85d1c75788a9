//! What a caller of houd may rely on: it moves groups of two as pair does, refuses to move more, before anything but a size, and
//! observes groups of any size.
use tsorvenk::*;

/// Two sites, each the other's neighbour, and eight systems, one up and the next down.
const FWD: [u32; 2] = [1, 0];
const ALL: [u32; 8] = [0, 1, 2, 3, 4, 5, 6, 7];
const MOVING: [Form; 3] = [Form::Sw, Form::Wolff, Form::Grow];

#[derive(Clone, Debug, PartialEq)]
struct Lent {
    spins: [i8; 16],
    labels: Vec<u32>,
    counts: Vec<u32>,
    sizes: Vec<u32>,
    member_sites: Vec<u8>,
    found: Vec<u32>,
}

/// Outputs of so many tasks.
fn lent(tasks: usize) -> Lent {
    Lent {
        spins: std::array::from_fn(|at| if at / 2 % 2 == 0 { 1 } else { -1 }),
        labels: vec![9; 2 * tasks],
        counts: vec![9; 3 * tasks],
        sizes: vec![9; 4 * tasks],
        member_sites: vec![9; 2 * tasks],
        found: vec![9; tasks],
    }
}

fn call(mode: Mode, form: Form, members: usize, lent: &mut Lent) -> Step<'_> {
    Step {
        mode,
        form,
        n: 2,
        d: 1,
        s: 8,
        spins: &mut lent.spins,
        fwd: &FWD,
        bwd: &FWD,
        group: &ALL[..members],
        flips: &[1, 1],
        labels: &mut lent.labels,
        counts: &mut lent.counts,
        sizes: &mut lent.sizes,
        member_sites: &mut lent.member_sites,
        found: &mut lent.found,
        ..Default::default()
    }
}

type Answered<T> = (Result<T, Refusal>, Lent);

fn stepped(mode: Mode, form: Form, members: usize) -> Answered<Stepped> {
    let mut lent = lent(1);
    let answer = step(call(mode, form, members, &mut lent));
    (answer, lent)
}

fn swept(mode: Mode, form: Form, members: usize, masks: &[u8]) -> Answered<Swept> {
    let tasks = 8 / members;
    let mut lent = lent(tasks);
    let answer = sweep(Sweep {
        mode,
        form,
        n: 2,
        d: 1,
        s: 8,
        t: 1,
        r: 8,
        members,
        spins: &mut lent.spins,
        fwd: &FWD,
        bwd: &FWD,
        order: &ALL,
        masks,
        seeds: &vec![0; tasks],
        flips: &vec![1; 2 * tasks],
        labels: &mut lent.labels,
        counts: &mut lent.counts,
        sizes: &mut lent.sizes,
        member_sites: &mut lent.member_sites,
        found: &mut lent.found,
        ..Default::default()
    });
    (answer, lent)
}

#[test]
fn of_two_it_moves_as_pair_does() {
    for form in Form::ALL {
        let houd = stepped(Mode::Houd, form, 2);
        assert_eq!(houd.0, Ok(Stepped::Moved));
        assert_eq!(houd, stepped(Mode::Pair, form, 2));
        assert_eq!(houd.1.spins == lent(1).spins, form == Form::Observe);
        let houd = swept(Mode::Houd, form, 2, &[0]);
        assert_eq!(houd.0.map(|swept| swept.moved), Ok(4));
        assert_eq!(houd, swept(Mode::Pair, form, 2, &[0]));
    }
}

#[test]
fn of_more_it_does_not_move() {
    for form in MOVING {
        for members in 3..=8 {
            let (answer, after) = stepped(Mode::Houd, form, members);
            assert_eq!((answer, after), (Err(Refusal { number: 15 }), lent(1)));
            // masked or not, and before a mask byte that is none or is missing
            for masks in [&[0][..], &[1], &[2], &[]] {
                let (answer, after) = swept(Mode::Houd, form, members, masks);
                let untouched = lent(8 / members);
                assert_eq!((answer, after), (Err(Refusal { number: 15 }), untouched));
            }
            assert_eq!(stepped(Mode::Pair, form, members).0, Ok(Stepped::Moved));
        }
    }
}

/// An even number of systems is balanced and acts, an odd one is not.
#[test]
fn any_number_is_observed() {
    for members in 2..=8 {
        let (answer, after) = stepped(Mode::Houd, Form::Observe, members);
        let (expected, labels, counts) = match members % 2 {
            0 => (Stepped::Moved, [0, 0], [0, 0, 1]),
            _ => (Stepped::Idle, [0, 1], [0, 0, 0]),
        };
        assert_eq!(answer, Ok(expected));
        assert_eq!((after.labels, after.counts), (labels.into(), counts.into()));
        assert_eq!(after.spins, lent(1).spins);
        let (answer, after) = swept(Mode::Houd, Form::Observe, members, &[0]);
        let tasks = 8 / members as u32;
        let counts = answer.map(|swept| (swept.idle, swept.moved));
        let expected = if members % 2 == 0 {
            (0, tasks)
        } else {
            (tasks, 0)
        };
        assert_eq!((counts, after.spins), (Ok(expected), lent(1).spins));
    }
}

#[test]
fn fifteen_comes_after_one_and_before_two() {
    for form in MOVING {
        for (n, number) in [(2, 15), (0, 1), (4097, 1)] {
            let mut after = lent(1);
            let sized = Step {
                n,
                ..call(Mode::Houd, form, 3, &mut after)
            };
            assert_eq!((step(sized), after), (Err(Refusal { number }), lent(1)));
        }
        for (members, number) in [(2, 2), (3, 15), (8, 15), (1, 1)] {
            let mut after = lent(1);
            let short = Step {
                fwd: &FWD[..1],
                flips: &[],
                ..call(Mode::Houd, form, members, &mut after)
            };
            assert_eq!((step(short), after), (Err(Refusal { number }), lent(1)));
        }
        let mut after = lent(1);
        let twice = Step {
            group: &[0, 0, 0],
            seed: 2,
            pins: Some(&[2, 2]),
            ..call(Mode::Houd, form, 3, &mut after)
        };
        let fifteen = Err(Refusal { number: 15 });
        assert_eq!((step(twice), after), (fifteen, lent(1)));
    }
    // in a sweep too: no size, more than there are replicas, and a short buffer
    for (n, members, number) in [(0, 3, 1), (2, 9, 1), (2, 4, 1), (2, 3, 15), (2, 2, 2)] {
        let mut spins = [1; 6];
        let answer = sweep(Sweep {
            mode: Mode::Houd,
            form: Form::Sw,
            n,
            d: 1,
            s: 3,
            t: 1,
            r: 3,
            members,
            spins: &mut spins,
            ..Default::default()
        });
        assert_eq!((answer, spins), (Err(Refusal { number }), [1; 6]));
    }
}

#[test]
fn it_has_words() {
    let refusal = stepped(Mode::Houd, Form::Sw, 4).0.unwrap_err();
    assert_eq!(
        refusal.to_string(),
        "refused with 15: houd moves groups of two alone; it observes groups of any size"
    );
}
