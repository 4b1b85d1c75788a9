//! Moves on panels of which a share of the sites is pinned (9/14).
use crate::case::Single;
use crate::model;
use crate::rand::Rand;

/// Pins at so many sites of a hundred, each drawn by itself.
pub fn pins(rand: &mut Rand, n: usize, percent: usize) -> Vec<u8> {
    let pin = |_| u8::from(rand.range(1, 100) <= percent);
    (0..n).map(pin).collect()
}

/// The same move from the first acting site whose component is held, or is not, if there is one.
pub fn seeded(case: &Single, held: bool) -> Option<Single> {
    let free = model::unheld(&case.step(&mut case.lent.clone()));
    let seed = free
        .iter()
        .position(|&site| site.is_some_and(|free| free != held))?;
    let mut case = case.clone();
    case.seed = seed;
    Some(case)
}
