//! What a caller who checks a vendor's moves may rely on: our own moves are accepted, the rows that are written make them again, and what is refused
//! or not accepted writes nothing.
use tsorvenk::*;

/// A square of four by four; each site has a right and a lower neighbour.
const SITES: usize = 16;
const MODES: [Mode; 2] = [Mode::Perm, Mode::Gperm];
const MOVING: [Form; 3] = [Form::Sw, Form::Wolff, Form::Grow];

/// What a vendor sends, and what else the check is lent.
#[derive(Clone)]
struct Sent {
    mode: Mode,
    n: usize,
    d: usize,
    members: usize,
    reference: usize,
    tables: [Vec<u32>; 2],
    pins: Option<Vec<u8>>,
    before: Vec<i8>,
    after: Vec<i8>,
    rows: Vec<u8>,
}

fn check(sent: &Sent) -> (Result<Checked, Refusal>, Vec<u8>) {
    let mut rows = sent.rows.clone();
    let answer = check_vendor(CheckVendor {
        mode: sent.mode,
        n: sent.n,
        d: sent.d,
        members: sent.members,
        reference: sent.reference,
        fwd: &sent.tables[0],
        bwd: &sent.tables[1],
        pins: sent.pins.as_deref(),
        before: &sent.before,
        after: &sent.after,
        rows: &mut rows,
    });
    (answer, rows)
}

fn accepted(sent: &Sent, rows: &[u8]) {
    assert_eq!(check(sent), (Ok(Checked::Accepted), rows.to_vec()));
}

/// Not accepted, and the rows as they were.
fn at_fault(sent: &Sent, component: u32) {
    assert_eq!(
        check(sent),
        (Ok(Checked::Fault(component)), sent.rows.clone())
    );
}

/// Refused, and the rows as they were.
fn refused(sent: &Sent, number: u8) {
    assert_eq!(check(sent), (Err(Refusal { number }), sent.rows.clone()));
}

/// Numbers that look drawn.
fn mixed(at: usize) -> usize {
    (at + 7).wrapping_mul(0x9e37_79b9_7f4a_7c15) >> 40
}

fn spins(rows: &[&str]) -> Vec<i8> {
    let sign = |c| if c == '+' { 1 } else { -1 };
    rows.iter().flat_map(|row| row.chars().map(sign)).collect()
}

/// A ring, in perm, of which nothing has moved.
fn ring(rows: &[&str]) -> Sent {
    let (n, members) = (rows[0].len(), rows.len());
    let table = |by: usize| (0..n).map(|i| ((i + by) % n) as u32).collect();
    Sent {
        mode: Mode::Perm,
        n,
        d: 1,
        members,
        reference: 0,
        tables: [table(1), table(n - 1)],
        pins: None,
        before: spins(rows),
        after: spins(rows),
        rows: vec![9; n * members],
    }
}

fn then(mut sent: Sent, rows: &[&str]) -> Sent {
    sent.after = spins(rows);
    sent
}

fn pinned(mut sent: Sent, pins: &[u8]) -> Sent {
    sent.pins = Some(pins.to_vec());
    sent
}

/// A square whose sites mostly act, of which nothing has moved.
fn square(mode: Mode, members: usize) -> Sent {
    let at = |x: usize, y: usize| (y % 4 * 4 + x % 4) as u32;
    let table = |by: usize| {
        let sites = (0..SITES).map(|site| (site % 4, site / 4));
        let both = sites.flat_map(|(x, y)| [at(x + by, y), at(x, y + by)]);
        both.collect()
    };
    let sign = |at: usize| if mixed(at) % 2 == 0 { 1 } else { -1 };
    let before: Vec<i8> = (0..members * SITES).map(sign).collect();
    Sent {
        mode,
        n: SITES,
        d: 2,
        members,
        reference: 5,
        tables: [table(1), table(3)],
        pins: None,
        after: before.clone(),
        before,
        rows: vec![9; SITES * members],
    }
}

/// What a step makes of the spins before.
fn moved(
    sent: &Sent,
    form: Form,
    seed: usize,
    perms: &[u8],
) -> (Result<Stepped, Refusal>, Vec<i8>) {
    let mut spins = sent.before.clone();
    let group: Vec<u32> = (0..sent.members as u32).collect();
    let answer = step(Step {
        mode: sent.mode,
        form,
        n: sent.n,
        d: sent.d,
        s: sent.members,
        spins: &mut spins,
        fwd: &sent.tables[0],
        bwd: &sent.tables[1],
        pins: sent.pins.as_deref(),
        group: &group,
        reference: sent.reference,
        seed,
        perms,
        labels: &mut vec![9; sent.n],
        counts: &mut vec![9; sent.n + 1],
        sizes: &mut [9; 4],
        member_sites: &mut vec![9; sent.n],
        found: &mut [9],
        ..Default::default()
    });
    (answer, spins)
}

/// The rows that are written, as the choices of SW, make the spins after of those before.
fn played(sent: &Sent) -> Vec<u8> {
    let (answer, rows) = check(sent);
    assert_eq!(answer, Ok(Checked::Accepted));
    assert_eq!(moved(sent, Form::Sw, 0, &rows).1, sent.after);
    rows
}

/// Choices of which none is the identity.
fn choices(form: Form, members: usize) -> Vec<u8> {
    let many = if form == Form::Sw { SITES } else { 1 };
    let turned = |at: usize| (at % members + at / members % (members - 1) + 1) % members;
    (0..many * members).map(|at| turned(at) as u8).collect()
}

#[test]
fn our_own_moves_are_accepted() {
    for (mode, form) in MODES.map(|mode| MOVING.map(|form| (mode, form))).concat() {
        for members in 2..=8 {
            let mut sent = square(mode, members);
            let perms = choices(form, members);
            for pins in [
                None,
                Some(vec![0; SITES]),
                Some((0..SITES).map(|i| u8::from(i == 9)).collect()),
            ] {
                sent.pins = pins;
                for seed in 0..SITES {
                    let (answer, after) = moved(&sent, form, seed, &perms);
                    // a seed that does not act is refused, and has then moved nothing
                    assert!(answer.is_ok() || answer == Err(Refusal { number: 10 }));
                    sent.after = after;
                    played(&sent);
                }
            }
        }
    }
}

/// Nothing has moved: every row is 0 to N - 1, also where all sites are pinned.
#[test]
fn the_same_spins_are_accepted() {
    for (mode, members) in MODES
        .map(|mode| [2, 3, 5, 8].map(|members| (mode, members)))
        .concat()
    {
        let same: Vec<u8> = (0..SITES * members)
            .map(|at| (at % members) as u8)
            .collect();
        let sent = square(mode, members);
        accepted(&sent, &same);
        accepted(&pinned(sent, &[1; SITES]), &same);
    }
}

/// Numbers are those of all components: of a ring of four, sites that act, that hang together or not, and sites that do not act.
#[test]
fn each_component_has_its_own_permutation() {
    // sites 0 and 3 hang together
    let sent = ring(&["++++", "-++-", "+++-"]);
    accepted(
        &then(sent.clone(), &["-++-", "++++", "+++-"]),
        &[1, 0, 2, 0, 1, 2, 0, 1, 2, 0, 1, 2],
    );
    // sites 0 and 2 do not
    let apart = ring(&["++++", "-+-+", "++-+"]);
    accepted(
        &then(apart.clone(), &["++-+", "++++", "-+-+"]),
        &[0, 2, 1, 0, 1, 2, 1, 0, 2, 0, 1, 2],
    );
    at_fault(&then(apart.clone(), &["++-+", "+++-", "-+-+"]), 3);
    at_fault(&then(apart.clone(), &["++-+", "+++-", "++-+"]), 0);
    at_fault(&then(apart, &["++++", "-+-+", "+--+"]), 1);
}

/// Equal rows leave several permutations: of all that serve the smallest is written.
#[test]
fn the_smallest_permutation_is_written() {
    let sent = ring(&["++", "--", "++", "--"]);
    accepted(
        &then(sent.clone(), &["--", "--", "++", "++"]),
        &[1, 3, 0, 2, 0, 1, 2, 3],
    );
    accepted(
        &then(sent.clone(), &["--", "++", "--", "++"]),
        &[1, 0, 3, 2, 0, 1, 2, 3],
    );
    at_fault(&then(sent.clone(), &["--", "++", "--", "--"]), 0);
    at_fault(&then(sent, &["-+", "+-", "--", "++"]), 0);
}

/// By gperm's rule, and with the reference site of the spins before: it never acts, and may not differ.
#[test]
fn the_reference_site_gauges() {
    let mut sent = ring(&["++", "-+"]);
    sent.mode = Mode::Gperm;
    accepted(&then(sent.clone(), &["+-", "--"]), &[0, 1, 1, 0]);
    at_fault(&then(sent.clone(), &["-+", "++"]), 0);
    // both members of site 1 have changed their sign: no permutation of theirs does that in perm
    sent.mode = Mode::Perm;
    at_fault(&then(sent.clone(), &["+-", "--"]), 1);
    accepted(&then(sent.clone(), &["-+", "++"]), &[1, 0, 0, 1]);
    // perm does not look at it
    sent.reference = usize::MAX;
    accepted(&then(sent, &["-+", "++"]), &[1, 0, 0, 1]);
}

/// A held component may not differ, even where a permutation makes it; pins on others are of no account.
#[test]
fn held_components_are_unchanged() {
    let sent = then(ring(&["+++", "--+"]), &["--+", "+++"]);
    accepted(&sent, &[1, 0, 0, 1, 0, 1]);
    at_fault(&pinned(sent.clone(), &[0, 1, 0]), 0);
    accepted(&pinned(sent, &[0, 0, 1]), &[1, 0, 0, 1, 0, 1]);
}

/// The faults come in falling order of their numbers, and each is the first then.
#[test]
fn refusals_in_their_order() {
    let mut sent = ring(&["++-", "-+-", "+++"]);
    sent.mode = Mode::Gperm;
    sent.after[1] = -1;
    assert!(matches!(check(&sent).0, Ok(Checked::Fault(_))));
    sent.reference = 3;
    refused(&sent, 9);
    let pins = pinned(sent.clone(), &[0, 0, 2]);
    refused(&pins, 4);
    sent.tables[0].swap(0, 1);
    refused(&sent, 4);
    let mut after = sent.clone();
    after.after[8] = 0;
    refused(&after, 3);
    sent.before[8] = 0;
    refused(&sent, 3);
    sent.rows.pop();
    refused(&sent, 2);
    sent.members = 9;
    refused(&sent, 1);
    sent.members = 3;
    for mode in [Mode::Houd, Mode::Pair, Mode::Jorg, Mode::Cmr] {
        sent.mode = mode;
        refused(&sent, 1);
    }
}

#[test]
fn sizes_out_of_their_range_are_refused() {
    let good = ring(&["+++", "-+-"]);
    let with = |n: usize, d: usize, members: usize| Sent {
        n,
        d,
        members,
        ..good.clone()
    };
    for (n, d, members) in [
        (0, 1, 2),
        (4097, 1, 2),
        (3, 0, 2),
        (3, 5, 2),
        (3, 1, 1),
        (3, 1, 9),
        (3, 1, 0),
    ] {
        refused(&with(n, d, members), 1);
    }
    refused(&with(usize::MAX, usize::MAX, usize::MAX), 1);
    refused(&with(3, 1, 3), 2);
    assert_eq!(
        check_vendor(CheckVendor::default()),
        Err(Refusal { number: 1 })
    );
}

/// Each by itself.
#[test]
fn a_wrong_length_is_refused() {
    let spoils: [fn(&mut Sent); 13] = [
        |sent| sent.tables[0].truncate(2),
        |sent| sent.tables[0].push(0),
        |sent| sent.tables[1].clear(),
        |sent| sent.tables[1].push(0),
        |sent| sent.pins = Some(vec![0; 2]),
        |sent| sent.pins = Some(vec![0; 4]),
        |sent| sent.pins = Some(vec![]),
        |sent| sent.before.truncate(5),
        |sent| sent.before.push(1),
        |sent| sent.after.clear(),
        |sent| sent.after.push(1),
        |sent| sent.rows.truncate(5),
        |sent| sent.rows.push(9),
    ];
    for spoil in spoils {
        let mut sent = ring(&["+++", "-+-"]);
        spoil(&mut sent);
        refused(&sent, 2);
    }
}

/// In either buffer, at its first and at its last place.
#[test]
fn a_byte_that_is_no_spin_is_refused() {
    let good = ring(&["+++", "-+-"]);
    for (at, byte) in [0, 5]
        .map(|at| [0, 2, -2, 127, -128].map(|byte| (at, byte)))
        .concat()
    {
        let [mut before, mut after] = [good.clone(), good.clone()];
        (before.before[at], after.after[at]) = (byte, byte);
        refused(&before, 3);
        refused(&after, 3);
    }
}
