//! The same types without the published sources. A run asks `PRESENT` before it makes any.
use calls::{Label, Sweep};

const ABSENT: &str = "built without the published sources";

pub struct Sweeper;

impl Sweeper {
    pub fn new(_call: &Sweep, _outputs: bool) -> Self {
        panic!("{ABSENT}")
    }

    pub fn pin(&mut self, _reference: usize, _seed: usize) {
        panic!("{ABSENT}")
    }

    pub fn run(&mut self, _spins: &mut [i8]) {
        panic!("{ABSENT}")
    }
}

pub struct Labelling;

impl Labelling {
    pub fn new(_call: &Label) -> Self {
        panic!("{ABSENT}")
    }

    pub fn run(&mut self, _holds: &[u8]) -> u32 {
        panic!("{ABSENT}")
    }
}
