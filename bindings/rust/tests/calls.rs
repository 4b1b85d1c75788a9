//! What a caller may rely on, whatever the panel: what is left out is ignored where it is not taken and refused where it is,
//! a refusal has words and leaves every buffer, and the two calls that write one number agree with what was lent.
use std::error::Error;
use tsorvenk::*;

/// One site that is its own neighbour and two systems that differ there; `lent` is what is written.
fn one_site(mode: Mode, form: Form, lent: &mut Lent) -> Step<'_> {
    Step {
        mode,
        form,
        n: 1,
        d: 1,
        s: 2,
        spins: &mut lent.spins,
        fwd: &[0],
        bwd: &[0],
        group: &[0, 1],
        labels: &mut lent.labels,
        counts: &mut lent.counts,
        sizes: &mut lent.sizes,
        member_sites: &mut lent.member_sites,
        found: &mut lent.found,
        ..Default::default()
    }
}

#[derive(Clone, Debug, PartialEq)]
struct Lent {
    spins: [i8; 2],
    labels: [u32; 1],
    counts: [u32; 2],
    sizes: [u32; 4],
    member_sites: [u8; 1],
    found: [u32; 1],
}

const LENT: Lent = Lent {
    spins: [1, -1],
    labels: [9],
    counts: [9; 2],
    sizes: [9; 4],
    member_sites: [9],
    found: [9],
};

const WRITTEN: Lent = Lent {
    spins: [1, -1],
    labels: [0],
    counts: [0, 1],
    sizes: [1, 0, 0, 0],
    member_sites: [9],
    found: [1],
};

#[test]
fn what_is_not_taken_may_be_left_out() {
    for mode in [Mode::Houd, Mode::Pair, Mode::Perm] {
        let mut lent = LENT;
        let answer = step(one_site(mode, Form::Observe, &mut lent));
        assert_eq!((answer, lent), (Ok(Stepped::Moved), WRITTEN), "{mode:?}");
    }
    // the gauge makes the reference site agree with itself, and what does not act is not counted
    let mut lent = LENT;
    let answer = step(one_site(Mode::Gperm, Form::Observe, &mut lent));
    let (counts, sizes) = ([0; 2], [0; 4]);
    let uncounted = Lent {
        counts,
        sizes,
        ..WRITTEN
    };
    assert_eq!((answer, lent), (Ok(Stepped::Idle), uncounted));
    let mut lent = LENT;
    let answer = step(one_site(Mode::Pair, Form::Wolff, &mut lent));
    let spins = [-1, 1];
    assert_eq!(
        (answer, lent),
        (Ok(Stepped::Moved), Lent { spins, ..WRITTEN })
    );
}

/// The form that grows takes no labels, counts, sizes and number of components, and the others no member sites: whatever is
/// lent is kept.
#[test]
fn a_form_leaves_the_outputs_of_others() {
    let mut lent = LENT;
    let answer = step(one_site(Mode::Pair, Form::Grow, &mut lent));
    let grown = Lent {
        spins: [-1, 1],
        member_sites: [1],
        ..LENT
    };
    assert_eq!((answer, lent), (Ok(Stepped::Moved), grown));
    let mut lent = LENT;
    let bare = Step {
        labels: &mut [],
        counts: &mut [],
        sizes: &mut [],
        found: &mut [],
        ..one_site(Mode::Gperm, Form::Grow, &mut lent)
    };
    let turned = Step {
        perms: &[1, 0],
        ..bare
    };
    let idle = Lent {
        member_sites: [0],
        ..LENT
    };
    assert_eq!((step(turned), lent), (Ok(Stepped::Idle), idle));
    let mut lent = LENT;
    let unlent = Step {
        member_sites: &mut [],
        ..one_site(Mode::Pair, Form::Grow, &mut lent)
    };
    assert_eq!((step(unlent), lent), (Err(Refusal { number: 2 }), LENT));
}

#[test]
fn a_sweep_grows_in_its_tasks() {
    let (mut spins, mut member_sites) = ([1, -1, 1, 1], [9; 2]);
    let mut grow = |member_sites: &mut [u8]| {
        sweep(Sweep {
            mode: Mode::Pair,
            form: Form::Grow,
            n: 1,
            d: 1,
            s: 4,
            t: 1,
            r: 4,
            members: 2,
            spins: &mut spins,
            fwd: &[0],
            bwd: &[0],
            order: &[0, 1, 2, 3],
            masks: &[0],
            seeds: &[0, 0],
            member_sites,
            ..Default::default()
        })
    };
    assert_eq!(grow(&mut member_sites[..1]), Err(Refusal { number: 2 }));
    let swept = grow(&mut member_sites).unwrap();
    assert_eq!((swept.idle, swept.moved, swept.held), (1, 1, 0));
    assert_eq!((spins, member_sites), ([-1, 1, 1, 1], [1, 0]));
}

#[test]
fn what_is_taken_and_left_out_is_refused() {
    for (mode, form) in [
        (Mode::Houd, Form::Sw),
        (Mode::Perm, Form::Wolff),
        (Mode::Cmr, Form::Grow),
        (Mode::Jorg, Form::Observe),
        (Mode::Cmr, Form::Observe),
    ] {
        let mut lent = LENT;
        let answer = step(one_site(mode, form, &mut lent));
        assert_eq!((answer, lent), (Err(Refusal { number: 2 }), LENT));
    }
    let mut lent = LENT;
    let cold = Step {
        couplings: &[1],
        cuts: &[0.0],
        ..one_site(Mode::Jorg, Form::Observe, &mut lent)
    };
    assert_eq!((step(cold), lent), (Err(Refusal { number: 7 }), LENT));
    let number = 1;
    assert_eq!(step(Step::default()), Err(Refusal { number }));
    assert_eq!(sweep(Sweep::default()), Err(Refusal { number }));
    assert_eq!(energy(Energy::default()), Err(Refusal { number }));
    assert_eq!(label(Label::default()), Err(Refusal { number }));
    assert_eq!(frames(Frames::default()), Err(NoRoom));
}

#[test]
fn a_refusal_is_an_error_with_words() {
    let refusal: Box<dyn Error> = sweep(Sweep::default()).unwrap_err().into();
    assert_eq!(
        refusal.to_string(),
        "refused with 1: a size, a group's size, the mode, the form, the coding or what is kept is out of its range"
    );
    let no_room: Box<dyn Error> = NoRoom.into();
    assert_eq!(no_room.to_string(), "there is no room for the answer");
    let known: Vec<u8> = (0..=255)
        .filter(|&number| refusal_words(number) != refusal_words(255))
        .collect();
    assert_eq!(
        known,
        [0, 1, 2, 3, 4, 5, 6, 7, 8, 9, 10, 11, 12, 13, 14, 15, 64, 65, 66, 67]
    );
    let mut words: Vec<&str> = known.iter().map(|&number| refusal_words(number)).collect();
    words.sort_unstable();
    words.dedup();
    assert_eq!(words.len(), known.len(), "each number has words of its own");
}

#[test]
fn an_answer_of_frames_is_the_front_of_the_room() {
    let mut out = [b'x'; 8];
    let text = b"no frames";
    assert_eq!(
        frames(Frames {
            text,
            out: &mut out
        }),
        Ok(&b"2f11\n"[..])
    );
    assert_eq!(&out, b"2f11\nxxx");
    let mut short = [b'x'; 4];
    assert_eq!(
        frames(Frames {
            text,
            out: &mut short
        }),
        Err(NoRoom)
    );
    assert_eq!(&short, b"xxxx");
}
