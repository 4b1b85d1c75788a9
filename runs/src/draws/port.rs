//! The exported draws as C calls them, with a source of any length; none of them where the library was not there at build time.
use super::make::Case;

pub const LINKED: bool = cfg!(port);

/// The number that comes back, with the source and the buffer as the call left them.
pub fn run(case: &Case) -> Option<(u8, Case)> {
    #[cfg(port)]
    {
        let mut after = case.clone();
        let number = linked::call(&mut after);
        Some((number, after))
    }
    #[cfg(not(port))]
    {
        let _ = case;
        None
    }
}

#[cfg(port)]
mod linked {
    use super::super::{Draw, Out};
    use super::Case;

    #[rustfmt::skip]
    extern "C" {
        fn tsorvenk_word(source: *mut u64, source_len: usize, word: *mut u64, word_len: usize) -> u8;
        fn tsorvenk_coin(source: *mut u64, source_len: usize, coin: *mut u8, coin_len: usize) -> u8;
        fn tsorvenk_below(m: u32, source: *mut u64, source_len: usize, number: *mut u32, number_len: usize) -> u8;
        fn tsorvenk_permutation(members: usize, source: *mut u64, source_len: usize, row: *mut u8, row_len: usize) -> u8;
        fn tsorvenk_fill_flips(source: *mut u64, source_len: usize, flips: *mut u8, flips_len: usize) -> u8;
        fn tsorvenk_fill_below(m: u32, source: *mut u64, source_len: usize, numbers: *mut u32, numbers_len: usize) -> u8;
        fn tsorvenk_fill_bytes_below(m: u32, source: *mut u64, source_len: usize, bytes: *mut u8, bytes_len: usize) -> u8;
        fn tsorvenk_fill_permutations(members: usize, source: *mut u64, source_len: usize, rows: *mut u8, rows_len: usize) -> u8;
        fn tsorvenk_wolff_permutation(members: usize, source: *mut u64, source_len: usize, rows: *mut u8, rows_len: usize) -> u8;
        fn tsorvenk_wolff_grey(source: *mut u64, source_len: usize, greys: *mut u8, greys_len: usize) -> u8;
        fn tsorvenk_fill_numbers(source: *mut u64, source_len: usize, perms: *mut u8, perms_len: usize) -> u8;
        fn tsorvenk_wolff_numbers(source: *mut u64, source_len: usize, perms: *mut u8, perms_len: usize) -> u8;
    }

    #[rustfmt::skip]
    pub fn call(case: &mut Case) -> u8 {
        let (s, four) = (case.source.as_mut_ptr(), case.source.len());
        // each pointer goes with the length of the buffer that it was taken from, and the two buffers are apart
        unsafe {
            match (case.draw, &mut case.out) {
                (Draw::Word, Out::Words(o)) => tsorvenk_word(s, four, o.as_mut_ptr(), o.len()),
                (Draw::Coin, Out::Bytes(o)) => tsorvenk_coin(s, four, o.as_mut_ptr(), o.len()),
                (Draw::Below(m), Out::Numbers(o)) => tsorvenk_below(m, s, four, o.as_mut_ptr(), o.len()),
                (Draw::Permutation(n), Out::Bytes(o)) => tsorvenk_permutation(n, s, four, o.as_mut_ptr(), o.len()),
                (Draw::Flips, Out::Bytes(o)) => tsorvenk_fill_flips(s, four, o.as_mut_ptr(), o.len()),
                (Draw::Numbers(m), Out::Numbers(o)) => tsorvenk_fill_below(m, s, four, o.as_mut_ptr(), o.len()),
                (Draw::Bytes(m), Out::Bytes(o)) => tsorvenk_fill_bytes_below(m, s, four, o.as_mut_ptr(), o.len()),
                (Draw::Rows(n), Out::Bytes(o)) => tsorvenk_fill_permutations(n, s, four, o.as_mut_ptr(), o.len()),
                (Draw::WolffRows(n), Out::Bytes(o)) => tsorvenk_wolff_permutation(n, s, four, o.as_mut_ptr(), o.len()),
                (Draw::WolffGreys, Out::Bytes(o)) => tsorvenk_wolff_grey(s, four, o.as_mut_ptr(), o.len()),
                (Draw::Orders, Out::Bytes(o)) => tsorvenk_fill_numbers(s, four, o.as_mut_ptr(), o.len()),
                (Draw::WolffOrders, Out::Bytes(o)) => tsorvenk_wolff_numbers(s, four, o.as_mut_ptr(), o.len()),
                (draw, out) => unreachable!("{draw:?} does not write {out:?}"),
            }
        }
    }
}
