//! The same functions without the published sources. A run asks `PRESENT` before it calls any.
use crate::Branch;
use calls::{Step, Sweep};

const ABSENT: &str = "built without the published sources";

pub struct Prepared;

impl Prepared {
    pub fn new(_call: &Sweep, _branch: Branch) -> Self {
        panic!("{ABSENT}")
    }

    pub fn run(&mut self, _spins: &mut [i8], _sequential: bool) {
        panic!("{ABSENT}")
    }
}

pub fn sweep(_call: Sweep, _branch: Branch, _sequential: bool) -> Vec<bool> {
    panic!("{ABSENT}")
}

pub fn step(_call: Step, _branch: Branch) -> bool {
    panic!("{ABSENT}")
}

pub fn active(_call: &Step) -> Vec<bool> {
    panic!("{ABSENT}")
}
