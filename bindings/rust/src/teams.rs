//! Two teams on one panel (12/14): a team's view of it, in which its own systems alone have names.
use crate::answers::Refusal;
#[cfg(linked)]
use crate::{
    energy, hand_over, meter_all, step, sweep, Accepted, Energy, HandOver, MeterAll, Step, Stepped,
    Sweep, Swept,
};

/// Whose each system of a panel is: a byte for each, 0 or 1, fixed when the panel is set up.
///
/// The calls of either [`Team`] take systems that are its own, and no other can be spelt:
///
/// ```
/// use tsorvenk::{Form, Mode, Refusal, Step, Stepped, Sweep, Teams};
///
/// // one site that is its own neighbour and five systems: the first and the last two are of team 0
/// let owners = [0, 1, 1, 0, 0];
/// let teams = Teams::new(&owners)?;
/// let (one, other) = (teams.team::<0>(), teams.team::<1>());
/// assert_eq!(one.order().len(), 3);
/// assert!(one.system(1).is_none() && one.system(5).is_none());
///
/// // what stands in the other team's rows does not matter, and stays there
/// let mut spins = [1, 0, 77, -1, -1];
/// let mut member_sites = [0];
/// let group = [one.system(0).unwrap(), one.system(3).unwrap()];
/// let stepped = one.step(&group, Step {
///     mode: Mode::Pair,
///     form: Form::Grow,
///     n: 1,
///     d: 1,
///     spins: &mut spins,
///     fwd: &[0],
///     bwd: &[0],
///     member_sites: &mut member_sites,
///     ..Default::default()
/// })?;
/// assert_eq!((stepped, spins), (Stepped::Moved, [-1, 0, 77, 1, -1]));
///
/// // the other team's sweep is over its two systems, whose rows are none yet
/// let refused = other.sweep(&other.order(), Sweep {
///     mode: Mode::Pair,
///     form: Form::Grow,
///     n: 1,
///     d: 1,
///     t: 1,
///     r: 2,
///     members: 2,
///     spins: &mut spins,
///     fwd: &[0],
///     bwd: &[0],
///     masks: &[0],
///     seeds: &[0],
///     member_sites: &mut member_sites,
///     ..Default::default()
/// });
/// assert_eq!(refused, Err(Refusal { number: 3 }));
/// # Ok::<(), Refusal>(())
/// ```
///
/// A system of one team is no argument of the other's calls:
///
/// ```compile_fail,E0308
/// let teams = tsorvenk::Teams::new(&[0, 1])?;
/// let foreign = teams.team::<1>().system(1).unwrap();
/// teams.team::<0>().energy(foreign, tsorvenk::Energy::default())?;
/// # Ok::<(), tsorvenk::Refusal>(())
/// ```
#[derive(Clone, Copy, Debug, PartialEq, Eq)]
pub struct Teams<'a> {
    owners: &'a [u8],
}

impl<'a> Teams<'a> {
    /// The owners of a panel's systems. A byte above 1 is refused with 3, as by every call.
    pub fn new(owners: &'a [u8]) -> Result<Self, Refusal> {
        match owners.iter().all(|&owner| owner <= 1) {
            true => Ok(Teams { owners }),
            false => Err(Refusal { number: 3 }),
        }
    }

    /// One of the two, `team::<0>()` or `team::<1>()`; there is no third.
    pub fn team<const TEAM: u8>(self) -> Team<'a, TEAM> {
        const { assert!(TEAM <= 1) };
        let Teams { owners } = self;
        Team { owners }
    }
}

/// A system of the team `TEAM`: its [`Team`] alone makes one. It is one of the panel whose owners made it; on a panel with other
/// owners it may be foreign, and is then refused with 5.
#[derive(Clone, Copy, Debug, PartialEq, Eq, PartialOrd, Ord, Hash)]
#[repr(transparent)]
pub struct OwnSystem<const TEAM: u8>(u32);

impl<const TEAM: u8> OwnSystem<TEAM> {
    /// Its number on the panel, by which its row and its total are found.
    pub fn number(self) -> usize {
        self.0 as usize
    }
}

/// A team's view of a panel: its own systems, and the calls, which take no others. Each sets `s`, `team`, `owners` and what names
/// systems; the call that it is lent has them left out.
#[derive(Clone, Copy, Debug, PartialEq, Eq)]
pub struct Team<'a, const TEAM: u8> {
    owners: &'a [u8],
}

impl<'a, const TEAM: u8> Team<'a, TEAM> {
    /// The owners of all systems of the panel.
    pub fn owners(self) -> &'a [u8] {
        self.owners
    }

    /// The system of this number, if there is one and it is the team's.
    pub fn system(self, number: usize) -> Option<OwnSystem<TEAM>> {
        let owner = self.owners.get(number)?;
        (*owner == TEAM).then_some(OwnSystem(number as u32))
    }

    /// All systems of the team, the smallest number first.
    pub fn systems(self) -> impl Iterator<Item = OwnSystem<TEAM>> + 'a {
        (0..self.owners.len()).filter_map(move |number| self.system(number))
    }

    /// The same as a list: every one of them once, as a sweep takes them, for its caller to shuffle.
    pub fn order(self) -> Vec<OwnSystem<TEAM>> {
        self.systems().collect()
    }
}

/// A system is its number and nothing else.
#[cfg(linked)]
fn numbers<const TEAM: u8>(systems: &[OwnSystem<TEAM>]) -> &[u32] {
    // it has the layout of a u32, since it is transparent
    unsafe { std::slice::from_raw_parts(systems.as_ptr().cast(), systems.len()) }
}

#[cfg(linked)]
impl<'a, const TEAM: u8> Team<'a, TEAM> {
    /// [`step`] of a group of its own systems.
    pub fn step(self, group: &[OwnSystem<TEAM>], call: Step) -> Result<Stepped, Refusal> {
        step(Step {
            s: self.owners.len(),
            team: TEAM,
            owners: Some(self.owners),
            group: numbers(group),
            ..call
        })
    }

    /// [`sweep`] over its own systems, all of them: [`Team::order`] has them.
    pub fn sweep(self, order: &[OwnSystem<TEAM>], call: Sweep) -> Result<Swept, Refusal> {
        sweep(Sweep {
            s: self.owners.len(),
            team: TEAM,
            owners: Some(self.owners),
            order: numbers(order),
            ..call
        })
    }

    /// [`Sweep::test`] of such a sweep, for its tasks to be taken in any order. Two teams' tasks may be mixed, since each has its own
    /// rows; either's are merged when they are done.
    pub fn test<'b>(
        self,
        order: &'b [OwnSystem<TEAM>],
        call: Sweep<'b>,
        spins: &[i8],
        totals: &[i64],
    ) -> Result<Accepted<'b>, Refusal>
    where
        'a: 'b,
    {
        let call = Sweep {
            s: self.owners.len(),
            team: TEAM,
            owners: Some(self.owners),
            order: numbers(order),
            ..call
        };
        call.test(spins, totals)
    }

    /// [`energy`] of one of its own systems.
    pub fn energy(self, system: OwnSystem<TEAM>, call: Energy) -> Result<i64, Refusal> {
        energy(Energy {
            s: self.owners.len(),
            team: TEAM,
            owners: Some(self.owners),
            system: system.number(),
            ..call
        })
    }

    /// [`meter_all`] of its own systems.
    pub fn meter_all(self, call: MeterAll) -> Result<(), Refusal> {
        meter_all(MeterAll {
            s: self.owners.len(),
            team: TEAM,
            owners: Some(self.owners),
            ..call
        })
    }

    /// [`hand_over`] of its own totals.
    pub fn hand_over(self, call: HandOver) -> Result<(), Refusal> {
        hand_over(HandOver {
            s: self.owners.len(),
            team: TEAM,
            owners: Some(self.owners),
            ..call
        })
    }
}

#[cfg(test)]
mod tests {
    use super::*;

    #[test]
    fn a_byte_above_one_owns_nothing() {
        assert_eq!(Teams::new(&[0, 1, 2]), Err(Refusal { number: 3 }));
        assert_eq!(Teams::new(&[255]), Err(Refusal { number: 3 }));
        assert!(Teams::new(&[]).is_ok_and(|teams| teams.team::<0>().order().is_empty()));
    }

    #[test]
    fn each_system_is_one_teams_alone() {
        let teams = Teams::new(&[0, 1, 1, 0]).unwrap();
        let (one, other) = (teams.team::<0>(), teams.team::<1>());
        let of_one = [0, 1, 2, 3, 4].map(|k| one.system(k).map(OwnSystem::number));
        let of_other = [0, 1, 2, 3, 4].map(|k| other.system(k).map(OwnSystem::number));
        assert_eq!(of_one, [Some(0), None, None, Some(3), None]);
        assert_eq!(of_other, [None, Some(1), Some(2), None, None]);
        assert!(one.systems().eq([0, 3].map(|k| one.system(k).unwrap())));
        let all: Vec<usize> = other.order().iter().map(|system| system.number()).collect();
        assert_eq!((all, other.owners()), (vec![1, 2], &[0, 1, 1, 0][..]));
    }
}
