//! Request 12/14: whose a system is. To a team a system that is not its own is none.
use super::Panel;
use crate::case;

impl Panel<'_> {
    /// Whether it is the caller's own system; one that has no owner byte is nobody's.
    pub fn own(&self, system: usize) -> bool {
        self.owners.get(system) == Some(&self.team)
    }

    /// All systems of the caller.
    pub fn own_systems(&self) -> Vec<usize> {
        let all = 0..self.owners.len();
        all.filter(|&system| self.own(system)).collect()
    }
}

/// The tests that come before all others.
pub fn owners_refused(panel: Panel) -> Option<u8> {
    if panel.owners.len() != panel.s {
        Some(2)
    } else if panel.owners.iter().any(|&owner| owner > 1) || panel.team > 1 {
        Some(3)
    } else {
        None
    }
}

/// The same of the calls on a panel.
pub fn owner_refusal(panel: &case::Panel) -> Option<u8> {
    owners_refused(panel_of!(panel.meter(&[], 0)))
}
