//! Request 13/14 by hand: a vendor's spins before and after a move, what is written, and what is refused. All pairs on a few sites are held to all that a
//! move can make.
mod common;

use calls::Mode::{Gperm, Perm};
use calls::{Mode, Port};
use common::*;
use std::collections::BTreeSet;
use tsorvenk_runs::lattices::backward;
use tsorvenk_runs::make::{UNTOUCHED, UNTOUCHED_BYTE};
use tsorvenk_runs::model::{words, Model, NO};
use tsorvenk_runs::port;
use tsorvenk_runs::vendor::{Checked, Vendored};

/// One direction, nothing pinned, the first site for a reference.
fn pair(mode: Mode, fwd: &[u32], before: &[&str], after: &[&str]) -> Vendored {
    let (n, members) = (fwd.len(), before.len());
    Vendored {
        mode: mode as u8,
        n,
        d: 1,
        members,
        reference: 0,
        fwd: fwd.to_vec(),
        bwd: backward(n, 1, fwd),
        pins: vec![0; n],
        before: spins(before),
        after: spins(after),
        rows: vec![UNTOUCHED_BYTE; n * members],
        fault: vec![UNTOUCHED],
    }
}

fn with_pins(mut case: Vendored, pins: &[u8]) -> Vendored {
    case.pins = pins.to_vec();
    case
}

fn by_site(mut case: Vendored, reference: usize) -> Vendored {
    case.reference = reference;
    case
}

/// The answer of the model and of the port, as C and as the crate call it, which must agree.
fn check(case: &Vendored) -> Checked {
    let checked = case.by_model();
    let by_side = |side: &mut dyn Port| case.by_side(side);
    let sides = [
        by_side(&mut Model),
        port::linked().and_then(|mut port| by_side(port.as_mut())),
        case.as_c(),
    ];
    for side in sides.into_iter().flatten() {
        assert_eq!(side, checked, "{case:?}");
    }
    checked
}

/// Accepted with these rows, which make after of before, and no fault is written.
fn accepted(case: &Vendored, rows: &[&[u8]]) {
    let expected = Checked {
        number: 0,
        rows: rows.concat(),
        fault: case.fault.clone(),
    };
    assert_eq!(check(case), expected, "{case:?}");
    assert_eq!(both(|side| case.played(side, &expected.rows)), case.after);
}

/// Not accepted, and no row is written.
fn at_fault(case: &Vendored, component: u32) {
    let expected = Checked {
        fault: vec![component],
        ..case.unwritten(NO)
    };
    assert_eq!(check(case), expected, "{case:?}");
}

fn vendor_refused(case: &Vendored, number: u8) {
    assert_eq!(check(case), case.unwritten(number), "{case:?}");
}

#[test]
fn one_site() {
    let of = |before: &[&str], after: &[&str]| pair(Perm, L1, before, after);
    accepted(&of(&["+", "-"], &["-", "+"]), &[&[1, 0]]);
    accepted(&of(&["+", "-"], &["+", "-"]), &[&[0, 1]]);
    at_fault(&of(&["+", "-"], &["+", "+"]), 0);
    // it does not act
    accepted(&of(&["+", "+"], &["+", "+"]), &[&[0, 1]]);
    at_fault(&of(&["+", "+"], &["-", "-"]), 0);
    at_fault(&of(&["+", "+"], &["+", "-"]), 0);
    // of the first two, and of the last two, either may come first
    accepted(&of(&["+", "+", "-"], &["-", "+", "+"]), &[&[2, 0, 1]]);
    accepted(
        &of(&["+", "-", "+", "-"], &["-", "-", "+", "+"]),
        &[&[1, 3, 0, 2]],
    );
    // gperm's one site is its reference
    accepted(&pair(Gperm, L1, &["+", "-"], &["+", "-"]), &[&[0, 1]]);
    at_fault(&pair(Gperm, L1, &["+", "-"], &["-", "+"]), 0);
}

/// One component of two sites, two of one each, and a site that does not act.
#[test]
fn two_sites() {
    let swapped = pair(Perm, L2, &["+-", "-+"], &["-+", "+-"]);
    accepted(&swapped, &[&[1, 0], &[0, 1]]);
    // apart, each has its own
    accepted(
        &pair(Perm, I2, &["+-", "-+"], &["--", "++"]),
        &[&[1, 0], &[0, 1]],
    );
    at_fault(&pair(Perm, L2, &["+-", "-+"], &["--", "++"]), 0);
    accepted(
        &pair(Perm, I2, &["+-", "-+"], &["++", "--"]),
        &[&[0, 1], &[1, 0]],
    );
    let idle = |after: &[&str]| pair(Perm, L2, &["++", "+-"], after);
    accepted(&idle(&["+-", "++"]), &[&[0, 1], &[1, 0]]);
    at_fault(&idle(&["--", "++"]), 0);
    at_fault(&idle(&["+-", "+-"]), 1);
    at_fault(&idle(&["--", "+-"]), 0);
}

/// Rows that are equal on a component may be exchanged there, whatever they are elsewhere.
#[test]
fn equal_on_the_component() {
    let case = pair(Perm, I2, &["+-", "+-", "-+"], &["--", "+-", "++"]);
    accepted(&case, &[&[2, 0, 1], &[0, 1, 2]]);
    let ring = pair(Perm, R3, &["++-", "---", "++-"], &["---", "++-", "++-"]);
    accepted(&ring, &[&[1, 0, 2], &[0, 1, 2], &[0, 1, 2]]);
    at_fault(
        &pair(Perm, R3, &["++-", "---", "++-"], &["++-", "--+", "++-"]),
        1,
    );
}

/// With the pattern +- at the reference site a permutation of two negates both spins of a site where they agree.
#[test]
fn gauged() {
    let case = |after: &[&str]| pair(Gperm, R3, &["+++", "-+-"], after);
    // site 1 acts; sites 0 and 2 have the pattern itself
    accepted(&case(&["+-+", "---"]), &[&[0, 1], &[1, 0], &[0, 1]]);
    at_fault(&case(&["+-+", "-+-"]), 1);
    at_fault(&case(&["--+", "+--"]), 0);
    at_fault(&case(&["+--", "--+"]), 2);
    // gauged by site 1 it is perm
    let turned = by_site(case(&["-+-", "+++"]), 1);
    accepted(&turned, &[&[1, 0], &[0, 1], &[0, 1]]);
    at_fault(&by_site(case(&["+-+", "---"]), 1), 1);
    let three = pair(Gperm, L2, &["++", "+-", "-+"], &["+-", "++", "-+"]);
    accepted(&three, &[&[0, 1, 2], &[1, 0, 2]]);
}

/// A held component is at fault if it differs, though a permutation makes it.
#[test]
fn pinned_sites() {
    let swapped = pair(Perm, R3, &["+++", "--+"], &["--+", "+++"]);
    accepted(&swapped, &[&[1, 0], &[0, 1], &[0, 1]]);
    at_fault(&with_pins(swapped.clone(), &[1, 0, 0]), 0);
    at_fault(&with_pins(swapped.clone(), &[0, 1, 0]), 0);
    accepted(
        &with_pins(swapped, &[0, 0, 1]),
        &[&[1, 0], &[0, 1], &[0, 1]],
    );
    // equal rows change places: that is no change
    let equal = pair(Perm, R3, &["++-", "++-", "--+"], &["++-", "++-", "--+"]);
    accepted(
        &with_pins(equal, &[1, 1, 1]),
        &[&[0, 1, 2], &[0, 1, 2], &[0, 1, 2]],
    );
    // of two components that differ the held one alone is at fault
    let apart = pair(Perm, I2, &["++", "--"], &["--", "++"]);
    at_fault(&with_pins(apart.clone(), &[0, 1]), 1);
    at_fault(&with_pins(apart, &[1, 1]), 0);
}

/// Every group's size: a rotation by one place on a ring of three bits, and eight rows of which four are equal each.
#[test]
fn larger_groups() {
    for members in 2..=8 {
        let bits = |k: usize| [0, 1, 2].map(|i| ["-", "+"][k >> i & 1]).concat();
        let rows: Vec<String> = (0..members).map(bits).collect();
        let before: Vec<&str> = rows.iter().map(String::as_str).collect();
        let after: Vec<&str> = (0..members).map(|k| before[(k + 1) % members]).collect();
        let same: Vec<u8> = (0..members as u8).collect();
        let case = pair(Perm, R3, &before, &after);
        let row: Vec<u8> = (0..members).map(|k| ((k + 1) % members) as u8).collect();
        accepted(&case, &[&row, &same, &same]);
    }
    let halves = ["+", "-", "+", "-", "+", "-", "+", "-"];
    let sorted = ["-", "-", "-", "-", "+", "+", "+", "+"];
    accepted(
        &pair(Perm, L1, &halves, &sorted),
        &[&[1, 3, 5, 7, 0, 2, 4, 6]],
    );
    accepted(
        &pair(Perm, L1, &sorted, &halves),
        &[&[4, 0, 5, 1, 6, 2, 7, 3]],
    );
    at_fault(
        &pair(Perm, L1, &["+", "-", "+", "-", "+", "-", "+", "+"], &sorted),
        0,
    );
}

#[test]
fn words_are_all_permutations_in_order() {
    for (len, many) in [
        (2, 2),
        (3, 6),
        (4, 24),
        (5, 120),
        (6, 720),
        (7, 5040),
        (8, 40320),
    ] {
        assert_eq!(words(len).len(), many);
        assert!(words(len).is_sorted_by(|one, other| one < other));
        for word in words(len) {
            assert!((0..len as u8).all(|digit| word.contains(&digit)) && word.len() == len);
        }
    }
}

fn all_spins(places: usize) -> impl Iterator<Item = Vec<i8>> {
    let spin = |number: usize, place: usize| if number >> place & 1 == 1 { 1 } else { -1 };
    (0..1usize << places).map(move |number| (0..places).map(|place| spin(number, place)).collect())
}

/// What SW makes of the spins before by all choices of so many rows.
fn all_made(case: &Vendored) -> BTreeSet<Vec<i8>> {
    let mut choices: Vec<Vec<u8>> = vec![vec![]];
    for _ in 0..case.n {
        let longer = |rows: &Vec<u8>| {
            let rows = rows.clone();
            words(case.members)
                .iter()
                .map(move |word| [rows.clone(), word.clone()].concat())
        };
        choices = choices.iter().flat_map(longer).collect();
    }
    let made = |rows: &Vec<u8>| case.played(&mut Model, rows);
    choices.iter().map(made).collect()
}

/// No smaller word in any row makes the same.
fn smallest(case: &Vendored, rows: &[u8]) {
    for (number, row) in rows.chunks(case.members).enumerate() {
        for word in words(case.members)
            .iter()
            .take_while(|word| &word[..] < row)
        {
            let mut other = rows.to_vec();
            other[number * case.members..][..case.members].copy_from_slice(word);
            assert_ne!(case.played(&mut Model, &other), case.after, "{case:?}");
        }
    }
}

/// Of all spins after those are accepted that some move makes, and no others.
fn all_after(mut case: Vendored) -> usize {
    let made = all_made(&case);
    for after in all_spins(case.after.len()) {
        case.after = after;
        let checked = check(&case);
        assert_eq!(checked.number == 0, made.contains(&case.after), "{case:?}");
        if checked.number == 0 {
            assert_eq!(case.played(&mut Model, &checked.rows), case.after);
            smallest(&case, &checked.rows);
        }
    }
    made.len()
}

fn all_pairs(fwd: &[u32], members: usize, all_pins: &[&[u8]]) {
    let rows = vec!["+".repeat(fwd.len()); members];
    let rows: Vec<&str> = rows.iter().map(String::as_str).collect();
    let mut case = pair(Perm, fwd, &rows, &rows);
    let references = (0..fwd.len()).map(|site| (Gperm, site));
    for (mode, site) in [(Perm, usize::MAX)].into_iter().chain(references) {
        (case.mode, case.reference) = (mode as u8, site);
        for pins in all_pins {
            case.pins = pins.to_vec();
            for before in all_spins(rows.len() * fwd.len()) {
                case.before = before;
                assert!(all_after(case.clone()) > 0);
            }
        }
    }
}

#[test]
fn all_pairs_on_few_sites() {
    for members in 2..=4 {
        all_pairs(L1, members, &[&[0], &[1]]);
    }
    for fwd in [L2, I2] {
        all_pairs(fwd, 2, &[&[0, 0], &[1, 0], &[0, 1], &[1, 1]]);
        all_pairs(fwd, 3, &[&[0, 0], &[0, 1]]);
    }
    all_pairs(R3, 2, &[&[0, 0, 0], &[1, 0, 0], &[0, 1, 0], &[0, 1, 1]]);
    all_pairs(R3, 3, &[&[0, 0, 0]]);
}

/// The faults come in falling order of their numbers, and each is the first then.
#[test]
fn refusals_in_their_order() {
    let mut case = pair(Gperm, R3, &["++-", "-+-", "+++"], &["+--", "-+-", "+++"]);
    assert_eq!(check(&case).number, NO);
    case.reference = 3;
    vendor_refused(&case, 9);
    vendor_refused(&with_pins(case.clone(), &[0, 2, 0]), 4);
    case.fwd.swap(0, 1);
    vendor_refused(&case, 4);
    let mut after = case.clone();
    after.after[8] = 0;
    vendor_refused(&after, 3);
    case.before[8] = 2;
    vendor_refused(&case, 3);
    case.fault.push(UNTOUCHED);
    vendor_refused(&case, 2);
    for mode in [0, 1, 4, 5, 6, 7, 128, 255] {
        vendor_refused(
            &Vendored {
                mode,
                ..case.clone()
            },
            1,
        );
    }
    vendor_refused(&Vendored { members: 9, ..case }, 1);
}

#[test]
fn sizes_and_lengths() {
    let good = pair(Perm, R3, &["+++", "--+"], &["--+", "+++"]);
    let sized = |n: usize, d: usize, members: usize| Vendored {
        n,
        d,
        members,
        ..good.clone()
    };
    for n in [0, 4097, usize::MAX, 1 << 63] {
        vendor_refused(&sized(n, 1, 2), 1);
    }
    for d in [0, 5, usize::MAX] {
        vendor_refused(&sized(3, d, 2), 1);
    }
    for members in [0, 1, 9, usize::MAX, 1 << 63] {
        vendor_refused(&sized(3, 1, members), 1);
    }
    for (n, d, members) in [(2, 1, 2), (3, 2, 2), (3, 1, 3), (2, 1, 3)] {
        vendor_refused(&sized(n, d, members), 2);
    }
    let spoils: [fn(&mut Vendored, usize); 7] = [
        |case, length| case.fwd.resize(length, 0),
        |case, length| case.bwd.resize(length, 0),
        |case, length| case.pins.resize(length, 0),
        |case, length| case.before.resize(2 * length, 1),
        |case, length| case.after.resize(2 * length, 1),
        |case, length| case.rows.resize(2 * length, 9),
        |case, length| case.fault.resize(length, 9),
    ];
    for spoil in spoils {
        for length in [0, 2, 4, 100] {
            let mut case = good.clone();
            spoil(&mut case, length);
            vendor_refused(&case, 2);
        }
    }
}

/// A reference that is no site is refused in gperm, before any component is looked at; perm does not look at it.
#[test]
fn references() {
    let case = |mode| pair(mode, R3, &["+++", "--+"], &["--+", "+++"]);
    for site in [3, 4096, usize::MAX, 1 << 32, 1 << 63] {
        vendor_refused(&by_site(case(Gperm), site), 9);
        accepted(&by_site(case(Perm), site), &[&[1, 0], &[0, 1], &[0, 1]]);
    }
}
