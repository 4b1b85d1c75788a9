//! What a caller who reads labels may rely on: they are the components' numbers, `found` says how many there are, and a choice
//! stands at its component's number.
use tsorvenk::*;

/// Sites 0 and 1 are each other's neighbours, and so are 2 and 3; site 4 is its own. The two systems differ where they act.
const FWD: [u32; 5] = [1, 0, 3, 2, 4];

#[derive(Clone, Debug, PartialEq)]
struct Lent {
    spins: [i8; 10],
    labels: [u32; 5],
    grey_labels: [u32; 5],
    counts: [u32; 6],
    sizes: [u32; 4],
    found: Vec<u32>,
    grey_found: Vec<u32>,
}

fn lent(second: [i8; 5]) -> Lent {
    let mut spins = [1; 10];
    spins[5..].copy_from_slice(&second);
    Lent {
        spins,
        labels: [9; 5],
        grey_labels: [9; 5],
        counts: [9; 6],
        sizes: [9; 4],
        found: vec![9],
        grey_found: vec![9],
    }
}

impl Lent {
    fn step(&mut self, mode: Mode, form: Form, flips: &[u8]) -> Result<Stepped, Refusal> {
        step(Step {
            mode,
            form,
            n: 5,
            d: 1,
            s: 2,
            spins: &mut self.spins,
            fwd: &FWD,
            bwd: &FWD,
            couplings: &[1, 0, 1, 0, 0],
            group: &[0, 1],
            temperature: 1.0,
            cuts: &[0.0; 5],
            flips,
            greys: &[0; 5],
            labels: &mut self.labels,
            grey_labels: &mut self.grey_labels,
            counts: &mut self.counts,
            sizes: &mut self.sizes,
            found: &mut self.found,
            grey_found: &mut self.grey_found,
            ..Default::default()
        })
    }
}

#[test]
fn labels_are_numbers_without_gaps() {
    let mut all = lent([-1; 5]);
    let answer = all.step(Mode::Pair, Form::Observe, &[]);
    assert_eq!(answer, Ok(Stepped::Moved));
    assert_eq!((all.labels, all.found), ([0, 0, 1, 1, 2], vec![3]));
    assert_eq!(all.grey_found, [9], "taken in CMR alone");
    // what does not act is numbered and found, but not counted
    let mut some = lent([1, 1, -1, -1, 1]);
    let answer = some.step(Mode::Pair, Form::Observe, &[]);
    assert_eq!(answer, Ok(Stepped::Moved));
    assert_eq!((some.labels, some.found), ([0, 1, 2, 2, 3], vec![4]));
    assert_eq!(some.counts, [0, 0, 1, 0, 0, 0]);
}

#[test]
fn a_choice_stands_at_a_number() {
    let mut second = lent([-1; 5]);
    let answer = second.step(Mode::Pair, Form::Sw, &[0, 1, 0, 0, 0]);
    assert_eq!(answer, Ok(Stepped::Moved));
    assert_eq!(second.spins, [1, 1, -1, -1, 1, -1, -1, 1, 1, -1]);
    // entries that no component uses are tested
    let mut unused = lent([-1; 5]);
    let answer = unused.step(Mode::Pair, Form::Sw, &[0, 0, 0, 0, 2]);
    assert_eq!(
        (answer, unused),
        (Err(Refusal { number: 9 }), lent([-1; 5]))
    );
}

#[test]
fn grey_components_have_numbers_of_their_own() {
    // the bond of 0 and 1 is blue, that of 2 and 3 red
    let mut both = lent([1, 1, 1, -1, 1]);
    let answer = both.step(Mode::Cmr, Form::Sw, &[0; 5]);
    assert_eq!(answer, Ok(Stepped::Moved));
    assert_eq!((both.labels, both.found), ([0, 0, 1, 2, 3], vec![4]));
    assert_eq!(
        (both.grey_labels, both.grey_found),
        ([0, 0, 1, 1, 2], vec![3])
    );
}

#[test]
fn how_many_there_are_is_one_number() {
    for length in [0, 2] {
        let mut wrong = lent([-1; 5]);
        wrong.found = vec![9; length];
        let before = wrong.clone();
        let answer = wrong.step(Mode::Pair, Form::Observe, &[]);
        assert_eq!((answer, wrong), (Err(Refusal { number: 2 }), before));
        let mut wrong = lent([1; 5]);
        wrong.grey_found = vec![9; length];
        let before = wrong.clone();
        let answer = wrong.step(Mode::Cmr, Form::Sw, &[0; 5]);
        assert_eq!((answer, wrong), (Err(Refusal { number: 2 }), before));
    }
}
