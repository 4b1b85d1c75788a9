//! A permutation of five and its number. Each pointer goes with the length of the slice that it was taken from.
use crate::answers::Refusal;
use crate::foreign::{tsorvenk_number_of, tsorvenk_row_of};

/// The row of a permutation of five, of its number 0 to 119: its place among all 120 in ascending order as words. A number
/// above 119 is refused with 9.
///
/// ```
/// use tsorvenk::{number_of, row_of, Refusal};
///
/// assert_eq!(row_of(0), Ok([0, 1, 2, 3, 4]));
/// assert_eq!(row_of(1), Ok([0, 1, 2, 4, 3]));
/// assert_eq!(row_of(119), Ok([4, 3, 2, 1, 0]));
/// assert_eq!(row_of(120), Err(Refusal { number: 9 }));
/// assert!((0..120).all(|number| number_of(&row_of(number).unwrap()) == Ok(number)));
/// ```
#[inline]
pub fn row_of(number: u8) -> Result<[u8; 5], Refusal> {
    let mut row = [0; 5];
    match unsafe { tsorvenk_row_of(number, row.as_mut_ptr(), row.len()) } {
        0 => Ok(row),
        number => Err(Refusal { number }),
    }
}

/// The number of a row of five. A row of another length is refused with 2, and one that is no permutation of 0 to 4 with 9.
///
/// ```
/// use tsorvenk::{number_of, Refusal};
///
/// assert_eq!(number_of(&[1, 0, 2, 3, 4]), Ok(24));
/// assert_eq!(number_of(&[1, 1, 2, 3, 4]), Err(Refusal { number: 9 }));
/// assert_eq!(number_of(&[1, 0, 2, 3]), Err(Refusal { number: 2 }));
/// ```
#[inline]
pub fn number_of(row: &[u8]) -> Result<u8, Refusal> {
    let mut found = [0];
    match unsafe { tsorvenk_number_of(row.as_ptr(), row.len(), found.as_mut_ptr(), found.len()) } {
        0 => Ok(found[0]),
        number => Err(Refusal { number }),
    }
}
