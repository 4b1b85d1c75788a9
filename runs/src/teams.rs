//! A team's call on a panel that two teams share (12/14), made of the same call where the team has the panel for itself: its systems get places among
//! the other team's, and what the call does not name holds rubbish. It must answer and write the same, and leave the rubbish.
use crate::case::{Lent, Panel, Single, Swept};
use crate::model::LARGEST;
use crate::rand::Rand;

/// Whose the systems of a panel are, who calls, and what stands on the panel beside the systems that the call names.
#[derive(Clone, Debug)]
pub struct Shared {
    team: u8,
    owners: Vec<u8>,
    /// The team's systems, by the numbers that they have where the team has the panel for itself.
    places: Vec<usize>,
    /// Those of them whose rows and totals are the call's, by the same numbers.
    named: Vec<usize>,
    spins: Vec<i8>,
    totals: Vec<i64>,
}

fn spin(rand: &mut Rand) -> i8 {
    let any = rand.word() as i8;
    rand.pick(&[0, 2, -2, 127, -128, 1, -1, any])
}

fn total(rand: &mut Rand) -> i64 {
    let (most, any) = (LARGEST as i64, rand.word() as i64);
    rand.pick(&[i64::MIN, i64::MAX, most + 1, -most - 1, 0, any])
}

impl Shared {
    /// So many systems of the caller's, and of the other team none, as many as there is room for, or a few.
    pub fn any(rand: &mut Rand, n: usize, own: usize, named: Vec<usize>) -> Shared {
        let room = 64 - own;
        let others = match rand.range(0, 4) {
            0 => 0,
            1 => room,
            _ => rand.range(0, room.min(9)),
        };
        let team = rand.range(0, 1) as u8;
        let owner = |at: usize| if at < own { team } else { 1 - team };
        let order = rand.permutation(own + others);
        let owners = order.into_iter().map(owner).collect();
        Shared {
            named,
            ..Shared::of(rand, n, team, owners)
        }
    }

    /// A panel with these owners, on which the call names every system of its team.
    pub fn of(rand: &mut Rand, n: usize, team: u8, owners: Vec<u8>) -> Shared {
        let places: Vec<usize> = (0..owners.len())
            .filter(|&system| owners[system] == team)
            .collect();
        let shared = Shared {
            team,
            named: (0..places.len()).collect(),
            places,
            spins: vec![0; owners.len() * n],
            totals: vec![0; owners.len()],
            owners,
        };
        shared.again(rand)
    }

    /// The same with other rubbish.
    pub fn again(&self, rand: &mut Rand) -> Shared {
        Shared {
            spins: self.spins.iter().map(|_| spin(rand)).collect(),
            totals: self.totals.iter().map(|_| total(rand)).collect(),
            ..self.clone()
        }
    }

    pub fn places(&self) -> &[usize] {
        &self.places
    }

    /// The caller's team, as a number to count by.
    pub fn team(&self) -> usize {
        usize::from(self.team)
    }

    /// Some system of the other team, if it has one.
    pub fn foreign(&self) -> Option<usize> {
        self.owners.iter().position(|&owner| owner != self.team)
    }

    /// Whether every system of the team has the rows and totals of the call.
    pub fn whole(&self) -> bool {
        self.named.len() == self.places.len()
    }

    /// What is lent to a call, or what it left, among the rubbish. Totals that are not one for each system are not taken.
    pub fn lent(&self, lent: &Lent) -> Lent {
        let n = self.spins.len() / self.owners.len();
        let mut shared = lent.clone();
        shared.spins.clone_from(&self.spins);
        let kept = lent.totals.len() == self.places.len();
        if kept {
            shared.totals.clone_from(&self.totals);
        }
        for &system in &self.named {
            let place = self.places[system];
            shared.spins[place * n..][..n].copy_from_slice(&lent.spins[system * n..][..n]);
            if kept {
                shared.totals[place] = lent.totals[system];
            }
        }
        shared
    }

    pub fn panel(&self, panel: &Panel) -> Panel {
        Panel {
            s: self.owners.len(),
            team: self.team,
            owners: self.owners.clone(),
            ..panel.clone()
        }
    }

    fn systems(&self, systems: &[u32]) -> Vec<u32> {
        let place = |&system: &u32| self.places[system as usize] as u32;
        systems.iter().map(place).collect()
    }

    pub fn single(&self, case: &Single) -> Single {
        Single {
            panel: self.panel(&case.panel),
            group: self.systems(&case.group),
            lent: self.lent(&case.lent),
            ..case.clone()
        }
    }

    pub fn swept(&self, case: &Swept) -> Swept {
        Swept {
            panel: self.panel(&case.panel),
            order: self.systems(&case.order),
            lent: self.lent(&case.lent),
            ..case.clone()
        }
    }
}

/// A move among rubbish that may lie in other systems of its own team too.
pub fn around_single(rand: &mut Rand, case: &Single) -> Shared {
    let named = match rand.once_in(2) {
        true => (0..case.panel.s).collect(),
        false => case.group.iter().map(|&system| system as usize).collect(),
    };
    Shared::any(rand, case.panel.n, case.panel.s, named)
}

/// A sweep among rubbish, all of it the other team's.
pub fn around_swept(rand: &mut Rand, case: &Swept) -> Shared {
    let named = (0..case.panel.s).collect();
    Shared::any(rand, case.panel.n, case.panel.s, named)
}
