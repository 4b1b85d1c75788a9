//! Request 8/14, numbers and rows: every number, every row of digits below five, rows of any bytes, and lengths.
use tsorvenk_runs::rand::Rand;
use tsorvenk_runs::{model, raw};

/// The number that comes back of the model and of the port, which must agree, and the row.
fn row_of(number: u8, length: usize) -> (u8, Vec<u8>) {
    let lent = vec![0x5a; length];
    let mut row = lent.clone();
    let code = model::row_of(number, &mut row);
    let mut other = lent.clone();
    if let Some(found) = raw::row_of(number, &mut other) {
        assert_eq!((code, &row), (found, &other), "{number} {length}");
    }
    assert!(code == 0 || row == lent);
    (code, row)
}

fn number_of(row: &[u8], length: usize) -> (u8, Vec<u8>) {
    let lent = vec![0x5a; length];
    let mut number = lent.clone();
    let code = model::number_of(row, &mut number);
    let mut other = lent.clone();
    if let Some(found) = raw::number_of(row, &mut other) {
        assert_eq!((code, &number), (found, &other), "{row:?} {length}");
    }
    assert!(code == 0 || number == lent);
    (code, number)
}

/// By rank: each place counts the entries behind it that are smaller.
fn rank(row: &[u8]) -> usize {
    let smaller = |k: usize| row[k..].iter().filter(|&&entry| entry < row[k]).count();
    (0..5).fold(0, |rank, k| rank * (5 - k) + smaller(k))
}

#[test]
fn the_table_ascends_and_has_each_permutation() {
    let orders = model::orders();
    assert_eq!(orders.len(), 120);
    assert!(orders.windows(2).all(|pair| pair[0] < pair[1]));
    for (number, row) in orders.iter().enumerate() {
        assert_eq!(rank(row), number);
        let mut sorted = *row;
        sorted.sort_unstable();
        assert_eq!(sorted, [0, 1, 2, 3, 4]);
    }
    for (number, row) in [
        (0, [0, 1, 2, 3, 4]),
        (1, [0, 1, 2, 4, 3]),
        (23, [0, 4, 3, 2, 1]),
        (24, [1, 0, 2, 3, 4]),
        (60, [2, 3, 0, 1, 4]),
        (119, [4, 3, 2, 1, 0]),
    ] {
        assert_eq!(orders[number], row);
    }
}

#[test]
fn every_number_and_every_row() {
    for number in 0..=255 {
        let (code, row) = row_of(number, 5);
        assert_eq!(code, if number > 119 { 9 } else { 0 });
        if code == 0 {
            assert_eq!(rank(&row), usize::from(number));
            assert_eq!(number_of(&row, 1), (0, vec![number]));
        }
    }
    let mut permutations = 0;
    for at in 0..5usize.pow(5) {
        let row: Vec<u8> = (0..5).map(|k| (at / 5usize.pow(k) % 5) as u8).collect();
        let (code, number) = number_of(&row, 1);
        match code {
            0 => assert_eq!(row_of(number[0], 5), (0, row)),
            code => assert_eq!(code, 9, "{row:?}"),
        }
        permutations += usize::from(code == 0);
    }
    assert_eq!(permutations, 120);
    // one entry of each row is any other byte, and rows of any bytes
    for row in model::orders() {
        for (place, byte) in (0..5).flat_map(|place| (0..=255).map(move |byte| (place, byte))) {
            let mut other = *row;
            other[place] = byte;
            assert_eq!(number_of(&other, 1).0 == 0, other == *row, "{other:?}");
        }
    }
    let mut rand = Rand::new(8);
    for _ in 0..100_000 {
        let most = rand.pick(&[5, 7, 255]);
        let row: Vec<u8> = (0..5).map(|_| rand.range(0, most) as u8).collect();
        number_of(&row, 1);
    }
}

#[test]
fn lengths_come_before_what_is_lent() {
    for length in [0, 1, 4, 6, 10, 600] {
        for number in [0, 119, 120, 255] {
            assert_eq!(row_of(number, length).0, 2);
        }
        for byte in [0, 9] {
            assert_eq!(number_of(&vec![byte; length], 1).0, 2);
        }
    }
    for length in [0, 2, 5] {
        assert_eq!(number_of(&[4, 3, 2, 1, 0], length).0, 2);
        assert_eq!(number_of(&[4; 5], length).0, 2);
    }
}
