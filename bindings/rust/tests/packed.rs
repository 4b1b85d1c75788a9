//! What a caller who lends a byte for each site may rely on: a move on bytes is the move on their rows, and what is refused leaves
//! every buffer.
use tsorvenk::*;

/// A square of four by four; each site has a right and a lower neighbour.
const SITES: usize = 16;
const MOVING: [Form; 3] = [Form::Sw, Form::Wolff, Form::Grow];

fn tables() -> [Vec<u32>; 2] {
    let at = |x: usize, y: usize| (y % 4 * 4 + x % 4) as u32;
    let table = |by: usize| {
        let sites = (0..SITES).map(|site| (site % 4, site / 4));
        sites
            .flat_map(|(x, y)| [at(x + by, y), at(x, y + by)])
            .collect()
    };
    [table(1), table(3)]
}

/// Numbers that look drawn.
fn mixed(at: usize) -> usize {
    (at + 7).wrapping_mul(0x9e37_79b9_7f4a_7c15) >> 40
}

/// What a move is lent, whatever its layout; every choice moves something.
struct Given {
    mode: Mode,
    form: Form,
    keeps: Keeps,
    members: usize,
    pins: Option<Vec<u8>>,
    tables: [Vec<u32>; 2],
    couplings: Vec<i32>,
    temperature: f32,
    cuts: Vec<f32>,
    seed: usize,
    flips: Vec<u8>,
    perms: Vec<u8>,
    greys: Vec<u8>,
}

#[derive(Clone, Debug, PartialEq)]
struct Lent {
    columns: Vec<u8>,
    totals: Vec<i64>,
    labels: Vec<u32>,
    grey_labels: Vec<u32>,
    counts: Vec<u32>,
    sizes: [u32; 4],
    member_sites: Vec<u8>,
    found: [u32; 1],
    grey_found: [u32; 1],
}

fn given(mode: Mode, form: Form, members: usize) -> Given {
    let many = if form == Form::Sw { SITES } else { 1 };
    // gperm's reference, the first site, does not act
    let seed = usize::from(mode == Mode::Gperm);
    Given {
        mode,
        form,
        keeps: Keeps::Totals,
        members,
        pins: None,
        tables: tables(),
        couplings: (0..2 * SITES).map(|at| mixed(at) as i32 % 7 - 3).collect(),
        temperature: 2.0,
        cuts: (0..2 * SITES).map(|at| (mixed(at) % 5) as f32).collect(),
        seed,
        flips: vec![1; SITES],
        perms: (0..many * members)
            .map(|at| ((at + 1) % members) as u8)
            .collect(),
        greys: vec![1; many],
    }
}

/// Bytes of which the first acts in every mode but gperm, which is gauged by it, and the second in gperm. Houd of an odd number is idle.
fn lent(members: usize) -> Lent {
    let all = 0xff_u8 >> (8 - members);
    let half = 0b0101_0101 & all;
    let mut columns: Vec<u8> = (0..SITES).map(|at| mixed(at) as u8 & all).collect();
    (columns[0], columns[1]) = (half, half ^ 0b10);
    Lent {
        columns,
        totals: (0..members as i64).map(|k| 1000 * k).collect(),
        labels: vec![9; SITES],
        grey_labels: vec![9; SITES],
        counts: vec![9; SITES + 1],
        sizes: [9; 4],
        member_sites: vec![9; SITES],
        found: [9],
        grey_found: [9],
    }
}

fn call<'a>(given: &'a Given, lent: &'a mut Lent) -> PackedStep<'a> {
    PackedStep {
        mode: given.mode,
        form: given.form,
        keeps: given.keeps,
        n: SITES,
        d: 2,
        members: given.members,
        columns: &mut lent.columns,
        totals: &mut lent.totals,
        fwd: &given.tables[0],
        bwd: &given.tables[1],
        pins: given.pins.as_deref(),
        couplings: &given.couplings,
        temperature: given.temperature,
        cuts: &given.cuts,
        seed: given.seed,
        flips: &given.flips,
        perms: &given.perms,
        greys: &given.greys,
        labels: &mut lent.labels,
        grey_labels: &mut lent.grey_labels,
        counts: &mut lent.counts,
        sizes: &mut lent.sizes,
        member_sites: &mut lent.member_sites,
        found: &mut lent.found,
        grey_found: &mut lent.grey_found,
        ..Default::default()
    }
}

type Answered = (Result<Stepped, Refusal>, Lent);

fn on_bytes(given: &Given, mut lent: Lent) -> Answered {
    (packed_step(call(given, &mut lent)), lent)
}

fn rows_of(columns: &[u8], members: usize) -> Vec<i8> {
    let (n, mut rows) = (columns.len(), vec![9; members * columns.len()]);
    let call = Unpack {
        n,
        members,
        columns,
        rows: &mut rows,
    };
    assert_eq!(unpack(call), Ok(()));
    rows
}

fn columns_of(rows: &[i8], members: usize) -> Vec<u8> {
    let n = rows.len() / members;
    let mut columns = vec![9; n];
    let call = Pack {
        n,
        members,
        rows,
        columns: &mut columns,
    };
    assert_eq!(pack(call), Ok(()));
    columns
}

/// The same move on the rows that the bytes stand for.
fn on_rows(given: &Given, mut lent: Lent) -> Answered {
    let mut spins = rows_of(&lent.columns, given.members);
    let answer = {
        let packed = call(given, &mut lent);
        step(Step {
            mode: packed.mode,
            form: packed.form,
            coding: packed.coding,
            keeps: packed.keeps,
            n: packed.n,
            d: packed.d,
            s: packed.members,
            spins: &mut spins,
            totals: packed.totals,
            fwd: packed.fwd,
            bwd: packed.bwd,
            pins: packed.pins,
            couplings: packed.couplings,
            group: &[0, 1, 2, 3, 4, 5, 6, 7][..packed.members],
            temperature: packed.temperature,
            cuts: packed.cuts,
            reference: packed.reference,
            seed: packed.seed,
            flips: packed.flips,
            perms: packed.perms,
            greys: packed.greys,
            labels: packed.labels,
            grey_labels: packed.grey_labels,
            counts: packed.counts,
            sizes: packed.sizes,
            member_sites: packed.member_sites,
            found: packed.found,
            grey_found: packed.grey_found,
            ..Default::default()
        })
    };
    lent.columns = columns_of(&spins, given.members);
    (answer, lent)
}

/// The groups that a mode and form move or observe.
fn sizes(mode: Mode, form: Form) -> std::ops::RangeInclusive<usize> {
    match (mode, form) {
        (Mode::Cmr, _) => 2..=2,
        (Mode::Houd, Form::Sw | Form::Wolff | Form::Grow) => 2..=2,
        _ => 2..=8,
    }
}

fn refused<T>(number: u8) -> Result<T, Refusal> {
    Err(Refusal { number })
}

/// Answers, outputs, totals and bytes, in every mode and form, with pins and without.
#[test]
fn a_move_on_bytes_is_the_move_on_rows() {
    let (mut moved, mut held) = (0, 0);
    for (mode, form) in Mode::ALL.map(|m| Form::ALL.map(|f| (m, f))).concat() {
        for members in sizes(mode, form) {
            for (keeps, pin) in Keeps::ALL
                .map(|k| [None, Some(1), Some(6)].map(|p| (k, p)))
                .concat()
            {
                let mut given = given(mode, form, members);
                given.keeps = keeps;
                given.pins = pin.map(|pin| (0..SITES).map(|i| u8::from(i % 8 == pin)).collect());
                let before = lent(members);
                let (answer, after) = on_bytes(&given, before.clone());
                assert_eq!((answer, after.clone()), on_rows(&given, before.clone()));
                let answer = answer.unwrap();
                let idle = mode == Mode::Houd && members % 2 == 1;
                assert_eq!(answer == Stepped::Idle, idle, "{mode:?} {form:?} {members}");
                let stays = after.columns == before.columns;
                assert!(stays || answer == Stepped::Moved && form != Form::Observe);
                moved += usize::from(!stays);
                held += usize::from(answer == Stepped::Held);
            }
        }
    }
    assert!(moved > 100 && held > 20, "{moved} {held}");
}

#[test]
fn idle_leaves_the_bytes() {
    for form in Form::ALL {
        let given = given(Mode::Perm, form, 3);
        let mut agreed = lent(3);
        agreed.columns = (0..SITES).map(|i| if i % 3 == 0 { 7 } else { 0 }).collect();
        let (answer, after) = on_bytes(&given, agreed.clone());
        assert_eq!(
            (answer, &after.columns),
            (Ok(Stepped::Idle), &agreed.columns)
        );
        assert_eq!((answer, after), on_rows(&given, agreed));
    }
}

/// By numbers a permutation of five is one byte; a group of another size is 1.
#[test]
fn permutations_may_be_numbers() {
    let modes = [Mode::Perm, Mode::Gperm];
    for (mode, form) in modes.map(|mode| MOVING.map(|form| (mode, form))).concat() {
        let rows = given(mode, form, 5);
        let row = [1, 2, 3, 4, 0];
        assert_eq!(rows.perms[..5], row);
        let numbers = vec![number_of(&row).unwrap(); rows.perms.len() / 5];
        let mut after = lent(5);
        let answer = packed_step(PackedStep {
            coding: Coding::Numbers,
            perms: &numbers,
            ..call(&rows, &mut after)
        });
        assert_eq!((answer, after), on_bytes(&rows, lent(5)));
        let (four, mut after) = (given(mode, form, 4), lent(4));
        let other = packed_step(PackedStep {
            coding: Coding::Numbers,
            ..call(&four, &mut after)
        });
        assert_eq!((other, after), (refused(1), lent(4)));
    }
}

/// Refused with this number, and every buffer is as it was.
fn check(given: &Given, before: &Lent, number: u8) {
    let answered = on_bytes(given, before.clone());
    assert_eq!(answered, (refused(number), before.clone()));
}

/// The faults come in falling order of their numbers, and each is the first then.
#[test]
fn refusals_in_their_order() {
    for form in MOVING {
        let (mut given, mut before) = (given(Mode::Jorg, form, 2), lent(2));
        assert_eq!(on_bytes(&given, before.clone()).0, Ok(Stepped::Moved));
        before.totals[1] = -16_384_000_001;
        check(&given, &before, 14);
        match form {
            Form::Sw => {
                given.flips[15] = 2;
                check(&given, &before, 9);
            }
            _ => {
                given.seed = SITES;
                check(&given, &before, 10);
            }
        }
        given.cuts[31] = f32::NAN;
        check(&given, &before, 8);
        given.temperature = 0.0;
        check(&given, &before, 7);
        given.couplings[31] = -1_000_001;
        check(&given, &before, 6);
        given.pins = Some(vec![2; SITES]);
        check(&given, &before, 4);
        given.pins = None;
        given.tables[0].swap(0, 2);
        check(&given, &before, 4);
        before.columns[15] |= 0b100;
        check(&given, &before, 3);
        before.columns.push(0);
        check(&given, &before, 2);
        given.mode = Mode::Houd;
        given.members = 3;
        check(&given, &before, 15);
        given.members = 9;
        check(&given, &before, 1);
    }
}

/// Lengths of what the call takes, each by itself.
#[test]
fn a_wrong_length_is_refused() {
    let given = given(Mode::Pair, Form::Sw, 4);
    let lengths: [fn(&mut Lent); 6] = [
        |lent| lent.columns.truncate(SITES - 1),
        |lent| lent.columns.clear(),
        |lent| lent.totals.push(0),
        |lent| lent.labels.truncate(SITES - 1),
        |lent| lent.counts.push(9),
        |lent| lent.labels.clear(),
    ];
    for spoil in lengths {
        let mut before = lent(4);
        spoil(&mut before);
        assert_eq!(on_bytes(&given, before.clone()), (refused(2), before));
    }
    let mut short = Given {
        pins: Some(vec![0; SITES - 1]),
        ..given
    };
    assert_eq!(on_bytes(&short, lent(4)), (refused(2), lent(4)));
    short.pins = None;
    short.tables[1].pop();
    assert_eq!(on_bytes(&short, lent(4)), (refused(2), lent(4)));
    assert_eq!(packed_step(PackedStep::default()), refused(1));
}

/// With eight members every byte is one of spins.
#[test]
fn a_bit_from_the_size_upwards_is_refused() {
    for members in 2..=8 {
        let given = given(Mode::Perm, Form::Observe, members);
        for bit in 0..8 {
            let mut before = lent(members);
            before.columns[15] = 1 << bit;
            let (answer, after) = on_bytes(&given, before.clone());
            match bit < members {
                true => assert_eq!(answer, Ok(Stepped::Moved)),
                false => assert_eq!((answer, after), (refused(3), before)),
            }
        }
    }
    assert_eq!(
        Refusal { number: 3 }.to_string(),
        "refused with 3: a spin of a named system or a vendor's is not +1 or -1, a packed byte has a bit from N upwards, \
        or an owner byte or the team is above 1"
    );
}
