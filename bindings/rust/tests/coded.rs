//! What a caller who keeps permutations of five as numbers may rely on: both spellings lead to each other, a call by numbers is the
//! call by their rows, and what is refused.
use tsorvenk::*;

/// A ring of three sites; the five systems differ at each.
const SPINS: [i8; 15] = [1, -1, 1, -1, -1, 1, 1, -1, -1, -1, 1, -1, 1, 1, 1];

#[derive(Clone, Debug, PartialEq)]
struct Lent {
    spins: [i8; 15],
    labels: [u32; 3],
    counts: [u32; 4],
    sizes: [u32; 4],
    member_sites: [u8; 3],
    found: [u32; 1],
}

const LENT: Lent = Lent {
    spins: SPINS,
    labels: [9; 3],
    counts: [9; 4],
    sizes: [9; 4],
    member_sites: [9; 3],
    found: [9],
};

fn stepped(
    coding: Coding,
    (mode, form): (Mode, Form),
    group: &[u32],
    perms: &[u8],
) -> (Result<Stepped, Refusal>, Lent) {
    let mut lent = LENT;
    let answer = step(Step {
        mode,
        form,
        coding,
        n: 3,
        d: 1,
        s: 5,
        spins: &mut lent.spins,
        fwd: &[1, 2, 0],
        bwd: &[2, 0, 1],
        group,
        seed: 2,
        flips: &[1; 3],
        perms,
        labels: &mut lent.labels,
        counts: &mut lent.counts,
        sizes: &mut lent.sizes,
        member_sites: &mut lent.member_sites,
        found: &mut lent.found,
        ..Default::default()
    });
    (answer, lent)
}

fn swept(coding: Coding, form: Form, perms: &[u8]) -> (Result<Swept, Refusal>, Lent) {
    let mut lent = LENT;
    let answer = sweep(Sweep {
        mode: Mode::Perm,
        form,
        coding,
        n: 3,
        d: 1,
        s: 5,
        t: 1,
        r: 5,
        members: 5,
        spins: &mut lent.spins,
        fwd: &[1, 2, 0],
        bwd: &[2, 0, 1],
        order: &[0, 1, 2, 3, 4],
        masks: &[0],
        seeds: &[2],
        perms,
        labels: &mut lent.labels,
        counts: &mut lent.counts,
        sizes: &mut lent.sizes,
        member_sites: &mut lent.member_sites,
        found: &mut lent.found,
        ..Default::default()
    });
    (answer, lent)
}

const ALL: [u32; 5] = [0, 1, 2, 3, 4];
const MOVING: [Form; 3] = [Form::Sw, Form::Wolff, Form::Grow];

/// As many choices of one kind as a move of three sites takes.
fn choices<const LONG: usize>(form: Form, one: [u8; LONG]) -> Vec<u8> {
    one.repeat(if form == Form::Sw { 3 } else { 1 })
}

#[test]
fn numbers_and_rows_lead_to_each_other() {
    let mut last = None;
    for number in 0..120 {
        let row = row_of(number).unwrap();
        assert!(last < Some(row), "ascending");
        assert_eq!(number_of(&row), Ok(number));
        last = Some(row);
    }
    for number in 120..=255 {
        assert_eq!(row_of(number), Err(Refusal { number: 9 }));
    }
    for row in [[0; 5], [0, 1, 2, 3, 5], [255, 0, 1, 2, 3], [1, 2, 3, 4, 5]] {
        assert_eq!(number_of(&row), Err(Refusal { number: 9 }));
    }
    for row in [&[][..], &[0, 1, 2, 3], &[0, 1, 2, 3, 4, 5]] {
        assert_eq!(number_of(row), Err(Refusal { number: 2 }));
    }
}

#[test]
fn a_call_by_numbers_is_the_call_by_rows() {
    assert_eq!(Coding::default(), Coding::Rows);
    assert_eq!(Coding::ALL.map(|coding| coding as u8), [0, 1]);
    for form in MOVING {
        for number in 1..120 {
            let row = row_of(number).unwrap();
            let (numbers, rows) = (choices(form, [number]), choices(form, row));
            for mode in [Mode::Perm, Mode::Gperm] {
                let by_number = stepped(Coding::Numbers, (mode, form), &ALL, &numbers);
                assert_eq!(by_number.0, Ok(Stepped::Moved));
                assert_eq!(by_number, stepped(Coding::Rows, (mode, form), &ALL, &rows));
            }
            assert_eq!(
                swept(Coding::Numbers, form, &numbers),
                swept(Coding::Rows, form, &rows)
            );
        }
    }
}

#[test]
fn what_is_refused() {
    let refused = |number: u8| (Err(Refusal { number }), LENT);
    for form in MOVING {
        let kind = (Mode::Perm, form);
        let by_number = |group: &[u32], perms: &[u8]| stepped(Coding::Numbers, kind, group, perms);
        assert_eq!(by_number(&ALL, &choices(form, [120])), refused(9));
        assert_eq!(by_number(&ALL, &choices(form, [0, 1, 2, 3, 4])), refused(2));
        assert_eq!(by_number(&ALL[..4], &choices(form, [1])), refused(1));
        let identity = by_number(&ALL, &choices(form, [0]));
        match form {
            Form::Sw => assert_eq!((identity.0, identity.1.spins), (Ok(Stepped::Moved), SPINS)),
            _ => assert_eq!(identity, refused(9)),
        }
    }
    // an entry that no component uses is tested
    assert_eq!(
        stepped(Coding::Numbers, (Mode::Perm, Form::Sw), &ALL, &[1, 1, 120]),
        refused(9)
    );
}

#[test]
fn where_no_permutation_is_taken_the_coding_is_ignored() {
    for (kind, group) in [
        ((Mode::Pair, Form::Sw), &ALL[..4]),
        ((Mode::Pair, Form::Wolff), &ALL[..2]),
        ((Mode::Houd, Form::Grow), &ALL[..2]),
        ((Mode::Perm, Form::Observe), &ALL[..3]),
    ] {
        let [rows, numbers] = Coding::ALL.map(|coding| stepped(coding, kind, group, &[255; 7]));
        assert_eq!(rows, numbers);
        assert_ne!(rows.0, Err(Refusal { number: 1 }));
    }
}
