//! Rows and bytes: packing and unpacking undo each other, and what they refuse.
use tsorvenk::*;

fn refused<T>(number: u8) -> Result<T, Refusal> {
    Err(Refusal { number })
}

fn rows_of(columns: &[u8], members: usize) -> Vec<i8> {
    let (n, mut rows) = (columns.len(), vec![9; members * columns.len()]);
    let call = Unpack {
        n,
        members,
        columns,
        rows: &mut rows,
    };
    assert_eq!(unpack(call), Ok(()));
    rows
}

fn columns_of(rows: &[i8], members: usize) -> Vec<u8> {
    let n = rows.len() / members;
    let mut columns = vec![9; n];
    let call = Pack {
        n,
        members,
        rows,
        columns: &mut columns,
    };
    assert_eq!(pack(call), Ok(()));
    columns
}

#[test]
fn packing_and_unpacking_undo_each_other() {
    for members in 2..=8 {
        let columns: Vec<u8> = (0..1u32 << members).map(|byte| byte as u8).collect();
        let rows = rows_of(&columns, members);
        let n = columns.len();
        let set = |at: usize| at % n >> (at / n) & 1 == 1;
        assert!((0..rows.len()).all(|at| rows[at] == if set(at) { 1 } else { -1 }));
        assert_eq!(columns_of(&rows, members), columns);
    }
}

#[test]
fn what_packing_refuses() {
    let both = |n: usize, members: usize, rows: &[i8], columns: &[u8], number: u8| {
        let (mut new_columns, mut new_rows) = (columns.to_vec(), rows.to_vec());
        let packed = pack(Pack {
            n,
            members,
            rows,
            columns: &mut new_columns,
        });
        let unpacked = unpack(Unpack {
            n,
            members,
            columns,
            rows: &mut new_rows,
        });
        assert_eq!((packed, unpacked), (refused(number), refused(number)));
        assert_eq!((new_columns, new_rows), (columns.to_vec(), rows.to_vec()));
    };
    both(2, 3, &[1, 1, 1, 1, 1, 0], &[8, 0], 3);
    both(2, 3, &[1, 1, 1, 1, 1, 2], &[0, 0x80], 3);
    both(2, 3, &[0; 5], &[8, 0], 2);
    both(2, 3, &[0; 6], &[8], 2);
    both(2, 3, &[0; 6], &[8; 3], 2);
    both(2, 3, &[], &[], 2);
    for (n, members) in [(0, 3), (4097, 3), (2, 1), (2, 9), (0, 0), (usize::MAX, 3)] {
        both(n, members, &[0; 5], &[8], 1);
    }
    assert_eq!(pack(Pack::default()), refused(1));
    assert_eq!(unpack(Unpack::default()), refused(1));
}
