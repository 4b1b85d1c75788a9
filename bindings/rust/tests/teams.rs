//! What two teams on one panel may rely on: whose a system is comes before all other tests, a foreign system is none, and neither team's
//! calls read or write what is the other's.
use tsorvenk::*;

const MOST: i64 = 16_384_000_000;

/// Team 0 has the systems 0, 2 and 4, team 1 the systems 1 and 3.
const OWNERS: [u8; 5] = [0, 1, 0, 1, 0];

/// A ring of three with couplings and five systems: of either team each differs from the next at the first site alone.
#[derive(Clone, Debug, PartialEq)]
struct Panel {
    n: usize,
    s: usize,
    owners: Option<Vec<u8>>,
    spins: Vec<i8>,
    totals: Vec<i64>,
    member_sites: Vec<u8>,
}

fn panel() -> Panel {
    let (up, down) = ([1, 1, 1], [-1, 1, 1]);
    Panel {
        n: 3,
        s: 5,
        owners: Some(OWNERS.to_vec()),
        spins: [up, up, down, down, up].concat(),
        totals: vec![0, 0, -4, -4, 0],
        member_sites: vec![9; 3],
    }
}

const FWD: [u32; 3] = [1, 2, 0];
const BWD: [u32; 3] = [2, 0, 1];
const COUPLINGS: [i32; 3] = [1, 2, -3];

impl Panel {
    fn grow(&mut self, team: u8, group: &[u32]) -> Result<Stepped, Refusal> {
        step(Step {
            mode: Mode::Pair,
            form: Form::Grow,
            keeps: Keeps::Totals,
            n: self.n,
            d: 1,
            s: self.s,
            team,
            owners: self.owners.as_deref(),
            spins: &mut self.spins,
            totals: &mut self.totals,
            fwd: &FWD,
            bwd: &BWD,
            couplings: &COUPLINGS,
            group,
            member_sites: &mut self.member_sites,
            ..Default::default()
        })
    }

    /// At one temperature of r replicas, of which with three the last is left over.
    fn sweep(&mut self, team: u8, r: usize, order: &[u32]) -> Result<Swept, Refusal> {
        sweep(Sweep {
            mode: Mode::Pair,
            form: Form::Grow,
            keeps: Keeps::Totals,
            n: self.n,
            d: 1,
            s: self.s,
            team,
            t: 1,
            r,
            members: 2,
            owners: self.owners.as_deref(),
            spins: &mut self.spins,
            totals: &mut self.totals,
            fwd: &FWD,
            bwd: &BWD,
            couplings: &COUPLINGS,
            order,
            masks: &[0],
            seeds: &[0],
            member_sites: &mut self.member_sites,
            ..Default::default()
        })
    }

    fn energy(&self, team: u8, system: usize) -> Result<i64, Refusal> {
        energy(Energy {
            n: self.n,
            d: 1,
            s: self.s,
            team,
            owners: self.owners.as_deref(),
            spins: &self.spins,
            fwd: &FWD,
            bwd: &BWD,
            couplings: &COUPLINGS,
            system,
        })
    }

    fn hand_over(&self, team: u8) -> Result<(), Refusal> {
        hand_over(HandOver {
            n: self.n,
            d: 1,
            s: self.s,
            team,
            owners: self.owners.as_deref(),
            spins: &self.spins,
            totals: &self.totals,
            fwd: &FWD,
            bwd: &BWD,
            couplings: &COUPLINGS,
        })
    }

    fn meter_all(&mut self, team: u8) -> Result<(), Refusal> {
        meter_all(MeterAll {
            n: self.n,
            d: 1,
            s: self.s,
            team,
            owners: self.owners.as_deref(),
            spins: &self.spins,
            totals: &mut self.totals,
            fwd: &FWD,
            bwd: &BWD,
            couplings: &COUPLINGS,
        })
    }

    /// Rubbish in a system's row, and a total that no energy reaches.
    fn spoil(&mut self, system: usize) {
        self.spins[3 * system..][..3].copy_from_slice(&[0, 127, -128]);
        self.totals[system] = i64::MIN;
    }
}

fn refusal<T>(number: u8) -> Result<T, Refusal> {
    Err(Refusal { number })
}

/// Every call of this team is refused with this number and leaves what it was lent.
fn all_refused(panel: &Panel, team: u8, number: u8) {
    let mut after = panel.clone();
    assert_eq!(after.grow(team, &[0, 2]), refusal(number));
    assert_eq!(after.sweep(team, 3, &[0, 2, 4]), refusal(number));
    assert_eq!(after.energy(team, 0), refusal(number));
    assert_eq!(after.hand_over(team), refusal(number));
    assert_eq!(after.meter_all(team), refusal(number));
    assert_eq!(&after, panel);
}

#[test]
fn owners_come_before_all_else() {
    for (n, spins) in [(3, 15), (0, 15), (4097, 15), (3, 14), (3, 0)] {
        let mut other = panel();
        other.n = n;
        other.spins.truncate(spins);
        for length in [0, 1, 4, 6, 64, 4096] {
            other.owners = Some(vec![0; length]);
            all_refused(&other, 0, 2);
            // lengths come before bytes and the team
            other.owners = Some(vec![2; length]);
            all_refused(&other, 2, 2);
        }
        for byte in [2, 128, 255] {
            other.owners = Some(vec![0, 1, 0, 1, byte]);
            all_refused(&other, 0, 3);
            other.owners = Some(OWNERS.to_vec());
            all_refused(&other, byte, 3);
        }
    }
    let mut many = panel();
    (many.s, many.owners) = (65, Some(vec![0; 64]));
    all_refused(&many, 0, 2);
    many.owners = Some(vec![0; 65]);
    all_refused(&many, 0, 1);
    many.owners = Some(vec![2; 65]);
    all_refused(&many, 0, 3);
}

#[test]
fn owners_left_out_are_one_team() {
    assert!(Step::default().owners.is_none() && Sweep::default().owners.is_none());
    assert!(Energy::default().owners.is_none() && HandOver::default().owners.is_none());
    let mut one = panel();
    one.owners = Some(vec![0; 5]);
    let mut none = Panel {
        owners: None,
        ..panel()
    };
    assert_eq!(none.grow(0, &[1, 2]), Ok(Stepped::Moved));
    assert_eq!(one.grow(0, &[1, 2]), Ok(Stepped::Moved));
    assert_eq!(
        none.sweep(0, 5, &[4, 3, 2, 1, 0]).map(|swept| swept.moved),
        refusal(2),
        "two groups have two areas"
    );
    assert_eq!((&none.spins, &none.totals), (&one.spins, &one.totals));
    assert_eq!((none.hand_over(0), none.energy(0, 3)), (Ok(()), Ok(-4)));
    // the other team has nothing there
    assert_eq!(none.grow(1, &[1, 2]), refusal(5));
    assert_eq!(none.energy(1, 3), refusal(5));
    assert_eq!(none.sweep(1, 5, &[0, 1, 2, 3, 4]), refusal(1));
    assert_eq!(none.hand_over(1), Ok(()));
    for (s, number) in [(0, 1), (65, 1), (4096, 1), (4097, 2), (usize::MAX, 2)] {
        none.s = s;
        all_refused(&none, 0, number);
    }
}

#[test]
fn a_foreign_system_is_none() {
    let lent = panel();
    let mut after = lent.clone();
    for group in [[0, 1], [1, 2], [1, 3], [0, 5], [0, u32::MAX], [2, 2]] {
        assert_eq!(after.grow(0, &group), refusal(5), "{group:?}");
    }
    for system in [1, 3, 5, usize::MAX] {
        assert_eq!(after.energy(0, system), refusal(5));
    }
    for order in [[0, 2, 1], [1, 2, 4], [0, 2, 2], [0, 2, 5]] {
        assert_eq!(after.sweep(0, 3, &order), refusal(5), "{order:?}");
    }
    // the number of all systems, or of the other team's, is not that of this one's, and their order is too long
    assert_eq!(after.sweep(0, 5, &[0, 1, 2, 3, 4]), refusal(1));
    assert_eq!(after.sweep(0, 2, &[0, 2]), refusal(1));
    assert_eq!(after.sweep(0, 3, &[0, 1, 2, 3, 4]), refusal(2));
    assert_eq!(after.sweep(0, 3, &[0, 2]), refusal(2));
    assert_eq!(after, lent);
}

#[test]
fn a_team_without_systems_has_no_sweep() {
    let mut panel = panel();
    panel.owners = Some(vec![1; 5]);
    (0..5).for_each(|system| panel.spoil(system));
    let lent = panel.clone();
    for r in [0, 1, 2] {
        assert_eq!(panel.sweep(0, r, &[]), refusal(1));
    }
    assert_eq!(panel.grow(0, &[0, 2]), refusal(5));
    assert_eq!((panel.hand_over(0), panel.meter_all(0)), (Ok(()), Ok(())));
    assert_eq!(panel.hand_over(1), refusal(3));
    assert_eq!(panel, lent);
}

#[test]
fn rows_and_totals_of_named_systems_alone_are_tested() {
    // the other team's are never looked at
    let mut other = panel();
    other.spoil(1);
    other.spoil(3);
    assert_eq!(other.hand_over(0), Ok(()));
    assert_eq!(other.hand_over(1), refusal(3));
    assert_eq!(other.energy(0, 2), Ok(-4));
    assert_eq!(other.sweep(0, 3, &[4, 2, 0]).map(|s| s.moved), Ok(1));
    // a foreign row is refused as a system, not as a row; behind an own row, not before it
    assert_eq!(other.grow(0, &[0, 1]), refusal(5));
    assert_eq!(other.energy(0, 1), refusal(5));
    other.spins[0] = 0;
    assert_eq!(other.grow(0, &[0, 1]), refusal(3));
    // of its own a move looks at its group, a sweep at what is left over too
    let mut own = panel();
    own.spoil(4);
    let lent = own.clone();
    assert_eq!(own.sweep(0, 3, &[0, 2, 4]), refusal(3));
    assert_eq!(
        (own.hand_over(0), own.meter_all(0)),
        (refusal(3), refusal(3))
    );
    assert_eq!((own.energy(0, 4), own.energy(0, 0)), (refusal(3), Ok(0)));
    assert_eq!(own.grow(0, &[4, 2]), refusal(3));
    assert_eq!(own, lent);
    assert_eq!(own.grow(0, &[0, 2]), Ok(Stepped::Moved));
    assert_eq!(own.spins[12..], lent.spins[12..]);
    assert_eq!(own.totals, [-4, 0, 0, -4, i64::MIN]);
}

#[test]
fn fourteen_is_of_named_systems() {
    let mut own = panel();
    own.totals = vec![0, i64::MAX, -4, i64::MIN, MOST + 1];
    let lent = own.clone();
    assert_eq!(own.grow(0, &[2, 4]), refusal(14));
    assert_eq!(own.sweep(0, 3, &[0, 2, 4]), refusal(14), "left over");
    assert_eq!(own.hand_over(0), refusal(14));
    assert_eq!(own, lent);
    assert_eq!(own.grow(0, &[0, 2]), Ok(Stepped::Moved));
    assert_eq!(own.totals, [-4, i64::MAX, 0, i64::MIN, MOST + 1]);
    assert_eq!(own.meter_all(0), Ok(()));
    assert_eq!(own.totals, [-4, i64::MAX, 0, i64::MIN, 0]);
}

/// The same calls of a team beside whatever the other's rows and totals hold.
#[test]
fn what_is_the_others_changes_nothing() {
    let day = |panel: &mut Panel| {
        let answers = (
            panel.grow(0, &[2, 4]),
            panel.sweep(0, 3, &[4, 0, 2]),
            panel.energy(0, 2),
            panel.hand_over(0),
        );
        let own = |system: &usize| OWNERS[*system] == 0;
        let rows: Vec<i8> = (0..5)
            .filter(own)
            .flat_map(|system| panel.spins[3 * system..][..3].to_vec())
            .collect();
        let totals: Vec<i64> = (0..5).filter(own).map(|k| panel.totals[k]).collect();
        (answers, rows, totals, panel.member_sites.clone())
    };
    let expected = day(&mut panel());
    assert_eq!(expected.0 .3, Ok(()));
    for byte in [-128, -2, -1, 0, 1, 2, 127] {
        let mut other = panel();
        for system in [1, 3] {
            other.spins[3 * system..][..3].fill(byte);
            other.totals[system] = i64::from(byte) << 56;
        }
        let lent = other.clone();
        assert_eq!(day(&mut other), expected);
        for system in [1, 3] {
            assert_eq!(
                other.spins[3 * system..][..3],
                lent.spins[3 * system..][..3]
            );
            assert_eq!(other.totals[system], lent.totals[system]);
        }
    }
}
