//! Request 11/14 by hand: a group's rows and their bytes, and what packing and unpacking refuse.
mod common;

use common::*;
use tsorvenk_runs::make::UNTOUCHED_BYTE;
use tsorvenk_runs::packed::Layout;

fn layout(n: usize, members: usize, rows: &[i8], columns: &[u8]) -> Layout {
    Layout {
        n,
        members,
        rows: rows.to_vec(),
        columns: columns.to_vec(),
    }
}

/// The first member is the lowest bit.
#[test]
fn rows_and_their_bytes() {
    let rows = spins(&["++-", "+--", "-+-"]);
    let case = layout(3, 3, &rows, &[0b011, 0b101, 0]);
    assert_eq!(both(|side| case.pack(side)), (0, case.columns.clone()));
    assert_eq!(both(|side| case.unpack(side)), (0, rows));
}

#[test]
fn packing_and_unpacking_undo_each_other() {
    for members in 2..=8 {
        let n = 1 << members;
        let all: Vec<u8> = (0..n).map(|byte| byte as u8).collect();
        let case = layout(n, members, &vec![0; members * n], &all);
        let (number, rows) = both(|side| case.unpack(side));
        assert_eq!(number, 0);
        for (at, &spin) in rows.iter().enumerate() {
            assert_eq!(spin == 1, (at % n) & (1 << (at / n)) != 0, "{members} {at}");
        }
        let back = layout(n, members, &rows, &all);
        assert_eq!(both(|side| back.pack(side)), (0, all));
    }
}

#[test]
fn what_packing_refuses() {
    let pack = |case: &Layout, number: u8| {
        let left = vec![UNTOUCHED_BYTE; case.columns.len()];
        assert_eq!(both(|side| case.pack(side)), (number, left), "{case:?}");
    };
    let unpack = |case: &Layout, number: u8| {
        let left = vec![UNTOUCHED_BYTE as i8; case.rows.len()];
        assert_eq!(both(|side| case.unpack(side)), (number, left), "{case:?}");
    };
    let refused = |case: &Layout, number: u8| {
        pack(case, number);
        unpack(case, number);
    };
    let faulty = layout(2, 2, &[1, 0, 1, 1], &[4, 0]);
    refused(&faulty, 3);
    for rows in [vec![0; 3], vec![0; 5], vec![]] {
        refused(&layout(2, 2, &rows, &[4, 0]), 2);
    }
    for columns in [vec![4], vec![4; 3], vec![]] {
        refused(&layout(2, 2, &[0; 4], &columns), 2);
    }
    for n in [0, 4097, usize::MAX, 1 << 63] {
        refused(&layout(n, 2, &[0; 3], &[4]), 1);
    }
    for members in [0, 1, 9, usize::MAX, 1 << 63] {
        refused(&layout(2, members, &[0; 3], &[4]), 1);
    }
    for spin in [0, 2, -2, 127, -128] {
        pack(&layout(2, 2, &[1, 1, -1, spin], &[0, 0]), 3);
    }
    for members in 2..=7 {
        for bit in members..8 {
            unpack(&layout(1, members, &vec![1; members], &[1 << bit]), 3);
        }
    }
    let eight = layout(1, 8, &[1; 8], &[0xff]);
    assert_eq!(both(|side| eight.unpack(side)), (0, vec![1; 8]));
    assert_eq!(both(|side| eight.pack(side)), (0, vec![0xff]));
}
