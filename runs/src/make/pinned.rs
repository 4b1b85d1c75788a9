//! The pins of random calls.
use crate::rand::Rand;

/// None in a third of the calls, a few in a third, and 10 to 50 % of the sites in the rest. Its draws are aside, so that the calls are what they were
/// before there were pins; twice aside, since totals are drawn aside too.
pub fn pins(rand: &Rand, n: usize) -> Vec<u8> {
    let rand = &mut rand.aside().aside();
    let mut pins = vec![0; n];
    match rand.range(0, 2) {
        0 => {}
        1 => (0..rand.range(1, 4)).for_each(|_| pins[rand.range(0, n - 1)] = 1),
        _ => {
            let share = rand.range(10, 50);
            pins.fill_with(|| u8::from(rand.range(1, 100) <= share));
        }
    }
    pins
}
