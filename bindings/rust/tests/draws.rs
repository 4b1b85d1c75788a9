//! What a caller may rely on: the words of a seed, that each draw goes on where the last one ended, what is refused, and that a
//! refusal leaves the source and the buffer.
use tsorvenk::*;

const SEED: [u64; 4] = [1, 2, 3, 4];

/// The source after a refusal and what came of it.
fn refused<T: std::fmt::Debug + PartialEq>(
    number: u8,
    draw: impl FnOnce(&mut Source) -> Result<T, Refusal>,
) {
    let mut source = Source::new(SEED).unwrap();
    assert_eq!(draw(&mut source), Err(Refusal { number }));
    assert_eq!(source.words(), SEED);
}

#[test]
fn the_words_of_a_seed() {
    let mut source = Source::new(SEED).unwrap();
    for word in [
        11520,
        0,
        1509978240,
        1215971899390074240,
        1216172134540287360,
        607988272756665600,
        16172922978634559625,
        8476171486693032832,
    ] {
        assert_eq!(source.word(), Ok(word));
    }
}

#[test]
fn a_fill_is_its_draws_one_by_one() {
    let source = Source::new([5, 6, 7, 8]).unwrap();
    let (mut filled, mut single) = (source.clone(), source);
    let mut flips = [9; 40];
    filled.fill_flips(&mut flips).unwrap();
    assert_eq!(flips, std::array::from_fn(|_| single.coin().unwrap()));
    let mut numbers = [9; 40];
    filled.fill_below(4095, &mut numbers).unwrap();
    assert_eq!(
        numbers,
        std::array::from_fn(|_| single.below(4095).unwrap())
    );
    let mut bytes = [9; 40];
    filled.fill_bytes_below(4, &mut bytes).unwrap();
    assert_eq!(
        bytes,
        std::array::from_fn(|_| single.below(4).unwrap() as u8)
    );
    let mut greys = [9; 40];
    filled.wolff_grey(&mut greys).unwrap();
    assert_eq!(
        greys,
        std::array::from_fn(|_| 1 + single.below(3).unwrap() as u8)
    );
    let mut perms = [9; 40];
    filled.fill_numbers(&mut perms).unwrap();
    assert_eq!(
        perms,
        std::array::from_fn(|_| single.below(120).unwrap() as u8)
    );
    let mut perms = [9; 40];
    filled.wolff_numbers(&mut perms).unwrap();
    assert_eq!(
        perms,
        std::array::from_fn(|_| 1 + single.below(119).unwrap() as u8)
    );
    let mut rows = [9; 40];
    filled.fill_permutations(5, &mut rows).unwrap();
    for row in rows.chunks(5) {
        let mut alone = [9; 5];
        single.permutation(&mut alone).unwrap();
        assert_eq!(row, alone);
    }
    let mut rows = [9; 40];
    filled.wolff_permutation(2, &mut rows).unwrap();
    for row in rows.chunks(2) {
        assert_eq!(row, [1, 0]);
        let mut alone = [0, 1];
        while alone == [0, 1] {
            single.permutation(&mut alone).unwrap();
        }
    }
    assert_eq!(filled, single);
}

#[test]
fn what_is_empty_is_filled_by_no_word() {
    let mut source = Source::new(SEED).unwrap();
    source.fill_flips(&mut []).unwrap();
    source.fill_below(1, &mut []).unwrap();
    source.fill_bytes_below(256, &mut []).unwrap();
    source.fill_permutations(8, &mut []).unwrap();
    source.wolff_permutation(2, &mut []).unwrap();
    source.wolff_grey(&mut []).unwrap();
    source.fill_numbers(&mut []).unwrap();
    source.wolff_numbers(&mut []).unwrap();
    assert_eq!(source.words(), SEED);
}

#[test]
fn what_is_refused() {
    assert_eq!(Source::new([0; 4]), Err(Refusal { number: 12 }));
    for m in [0, 4097, u32::MAX] {
        refused(12, |source| source.below(m));
        refused(12, |source| source.fill_below(m, &mut []));
    }
    for m in [0, 257, 4096] {
        let mut bytes = [9; 3];
        refused(12, |source| source.fill_bytes_below(m, &mut bytes));
        assert_eq!(bytes, [9; 3]);
    }
    for members in [0, 1, 9] {
        let mut row = vec![9; members];
        refused(12, |source| source.permutation(&mut row));
        // the members are looked at before the length
        let mut rows = [9; 10];
        refused(12, |source| source.fill_permutations(members, &mut rows));
        refused(12, |source| source.wolff_permutation(members, &mut rows));
        assert_eq!((row, rows), (vec![9; members], [9; 10]));
    }
    let mut rows = [9; 10];
    refused(2, |source| source.fill_permutations(4, &mut rows));
    refused(2, |source| source.wolff_permutation(4, &mut rows));
    assert_eq!(rows, [9; 10]);
}

#[test]
fn the_limits_are_inside() {
    let mut source = Source::new(SEED).unwrap();
    for _ in 0..1000 {
        assert_eq!(source.below(1), Ok(0));
        assert!(source.below(4096).unwrap() < 4096);
        let mut bytes = [9; 2];
        source.fill_bytes_below(256, &mut bytes).unwrap();
    }
    let mut row = [9; 8];
    source.permutation(&mut row).unwrap();
    row.sort_unstable();
    assert_eq!(row, [0, 1, 2, 3, 4, 5, 6, 7]);
}
