//! A team's view of a panel makes the calls that name its team, its owners and its systems, and no others.
use tsorvenk::*;

const OWNERS: [u8; 4] = [0, 1, 0, 1];
const COUPLINGS: [i32; 1] = [1];

/// One site that is its own neighbour; of either team the two systems differ there.
#[derive(Clone, Debug, PartialEq)]
struct Lent {
    spins: [i8; 4],
    totals: [i64; 4],
    member_sites: [u8; 1],
}

const LENT: Lent = Lent {
    spins: [1, 1, -1, -1],
    totals: [-1; 4],
    member_sites: [9],
};

fn move_of(lent: &mut Lent) -> Step<'_> {
    Step {
        mode: Mode::Pair,
        form: Form::Grow,
        keeps: Keeps::Totals,
        n: 1,
        d: 1,
        spins: &mut lent.spins,
        totals: &mut lent.totals,
        fwd: &[0],
        bwd: &[0],
        couplings: &COUPLINGS,
        member_sites: &mut lent.member_sites,
        ..Default::default()
    }
}

fn sweep_of(lent: &mut Lent) -> Sweep<'_> {
    Sweep {
        mode: Mode::Pair,
        form: Form::Grow,
        keeps: Keeps::Totals,
        n: 1,
        d: 1,
        t: 1,
        r: 2,
        members: 2,
        spins: &mut lent.spins,
        totals: &mut lent.totals,
        fwd: &[0],
        bwd: &[0],
        couplings: &COUPLINGS,
        masks: &[0],
        seeds: &[0],
        member_sites: &mut lent.member_sites,
        ..Default::default()
    }
}

#[test]
fn a_view_moves_its_own() {
    let teams = Teams::new(&OWNERS).unwrap();
    let (one, other) = (teams.team::<0>(), teams.team::<1>());
    let (mut by_number, mut by_view) = (LENT, LENT);
    let stepped = other.step(&other.order(), move_of(&mut by_view));
    let numbered = step(Step {
        s: 4,
        team: 1,
        owners: Some(&OWNERS),
        group: &[1, 3],
        ..move_of(&mut by_number)
    });
    assert_eq!((stepped, &by_view), (numbered, &by_number));
    assert_eq!(
        (stepped, by_view.spins),
        (Ok(Stepped::Moved), [1, -1, -1, 1])
    );
    // what names systems, and whose they are, is the view's, whatever the call has there
    let spelt = Step {
        s: 99,
        team: 7,
        owners: Some(&[]),
        group: &[1, 3],
        ..move_of(&mut by_view)
    };
    assert_eq!(one.step(&one.order(), spelt), Ok(Stepped::Moved));
    assert_eq!(by_view.spins, [-1, -1, 1, 1]);
}

#[test]
fn a_view_sweeps_its_own() {
    let other = Teams::new(&OWNERS).unwrap().team::<1>();
    let (mut by_number, mut by_view) = (LENT, LENT);
    let mut order = other.order();
    order.reverse();
    let swept = other.sweep(&order, sweep_of(&mut by_view));
    let numbered = sweep(Sweep {
        s: 4,
        team: 1,
        owners: Some(&OWNERS),
        order: &[3, 1],
        ..sweep_of(&mut by_number)
    });
    assert_eq!((swept, &by_view), (numbered, &by_number));
    assert_eq!(swept.map(|swept| swept.moved), Ok(1));
    let short = other.sweep(&order[..1], sweep_of(&mut by_view));
    assert_eq!((short, by_view), (Err(Refusal { number: 2 }), by_number));
}

#[test]
fn a_view_meters_its_own() {
    let one = Teams::new(&OWNERS).unwrap().team::<0>();
    let (fwd, bwd, spins) = (&[0][..], &[0][..], &[1, 0, -1, 9][..]);
    let couplings = &COUPLINGS[..];
    let meter = Energy {
        n: 1,
        d: 1,
        spins,
        fwd,
        bwd,
        couplings,
        ..Default::default()
    };
    assert!(one.systems().all(|k| one.energy(k, meter) == Ok(-1)));
    let mut totals = [7; 4];
    let all = MeterAll {
        n: 1,
        d: 1,
        spins,
        totals: &mut totals,
        fwd,
        bwd,
        couplings,
        ..Default::default()
    };
    assert_eq!((one.meter_all(all), totals), (Ok(()), [-1, 7, -1, 7]));
    let mut handed = HandOver {
        n: 1,
        d: 1,
        spins,
        totals: &totals,
        fwd,
        bwd,
        couplings,
        ..Default::default()
    };
    assert_eq!(one.hand_over(handed), Ok(()));
    handed.totals = &[-1, 7, 0, 7];
    assert_eq!(one.hand_over(handed), Err(Refusal { number: 14 }));
}
