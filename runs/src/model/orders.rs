//! Request 8/14: the permutations of five by number, read off the words of five digits below five, counted up from 0 0 0 0 0.
use std::sync::LazyLock;

/// Counted up, words ascend: the first digit counts most.
fn word(at: u32) -> [u8; 5] {
    std::array::from_fn(|place| (at / 5u32.pow(4 - place as u32) % 5) as u8)
}

fn is_permutation(word: &[u8; 5]) -> bool {
    (0..5).all(|digit| word.contains(&digit))
}

static ORDERS: LazyLock<Vec<[u8; 5]>> =
    LazyLock::new(|| (0..3125).map(word).filter(is_permutation).collect());

/// All 120, ascending.
pub fn orders() -> &'static [[u8; 5]] {
    &ORDERS
}

/// The number that comes back; where it is not 0 nothing is written.
pub fn row_of(number: u8, row: &mut [u8]) -> u8 {
    if row.len() != 5 {
        return 2;
    }
    let Some(order) = orders().get(usize::from(number)) else {
        return 9;
    };
    row.copy_from_slice(order);
    0
}

/// The number that comes back; where it is not 0 nothing is written.
pub fn number_of(row: &[u8], number: &mut [u8]) -> u8 {
    if row.len() != 5 || number.len() != 1 {
        return 2;
    }
    let Some(place) = orders().iter().position(|order| order == row) else {
        return 9;
    };
    number[0] = place as u8;
    0
}
