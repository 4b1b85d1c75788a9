//! What a caller may rely on: a list fills the table, a table is written back, the order of refusals, and that a refusal writes
//! nothing.
use tsorvenk::*;

/// Two sites with two bonds between them, and the couplings 9 in a table that is lent.
fn read(text: &str) -> (Result<(), Refusal>, [i32; 2]) {
    let mut couplings = [9; 2];
    let answer = read_edges(ReadEdges {
        n: 2,
        d: 1,
        fwd: &[1, 0],
        bwd: &[1, 0],
        text: text.as_bytes(),
        couplings: &mut couplings,
    });
    (answer, couplings)
}

fn refused(number: u8, text: &str) {
    assert_eq!(read(text), (Err(Refusal { number }), [9; 2]), "{text:?}");
}

#[test]
fn a_line_fills_the_lowest_bond_that_is_left() {
    assert_eq!(read("2 0\n"), (Ok(()), [0, 0]));
    assert_eq!(read("2 1\n2 1 5\n"), (Ok(()), [5, 0]));
    assert_eq!(read("2 2\n2 1 5\n1 2 -6\n"), (Ok(()), [5, -6]));
    // 0 fills its bond too
    assert_eq!(read("2 2\n1 2 0\n1 2 1000000\n"), (Ok(()), [0, 1000000]));
    refused(13, "2 3\n1 2 0\n1 2 0\n1 2 0\n");
    refused(13, "2 1\n1 1 5\n");
}

#[test]
fn thirteen_anywhere_comes_before_six() {
    refused(6, "2 1\n1 2 1000001\n");
    refused(6, "2 1\n1 2 -100000000000000000000\n");
    refused(13, "2 2\n1 2 1000001\n1 2 00\n");
    for text in [
        "",
        "2 1",
        "2 1\n1 2 5",
        "2 1\n1 2 5\n\n",
        "2 1\r\n1 2 5\r\n",
        "2 2\n1 2 5\n",
        "3 1\n1 2 5\n",
        "02 1\n1 2 5\n",
        "2 1\n1 2 -0\n",
        "2 1\n1 2 +5\n",
        "2 1\n1  2 5\n",
        "2 1\n0 1 5\n",
        "2 1\n1 3 5\n",
        "2 1\n1 18446744073709551618 5\n",
    ] {
        refused(13, text);
    }
}

#[test]
fn a_list_is_written_to_the_front() {
    let write = |couplings: &[i32], room: usize| {
        let mut text = vec![b'x'; room];
        let answer = write_edges(WriteEdges {
            n: 2,
            d: 1,
            fwd: &[1, 0],
            bwd: &[1, 0],
            couplings,
            text: &mut text,
        })
        .map(<[u8]>::len);
        (answer, String::from_utf8(text).unwrap())
    };
    let refused = |number, room| (Err(Refusal { number }), "x".repeat(room));
    assert_eq!(write(&[0, 0], 6), (Ok(4), "2 0\nxx".to_string()));
    assert_eq!(write(&[0, -5], 11), (Ok(11), "2 1\n2 1 -5\n".to_string()));
    assert_eq!(write(&[0, -5], 10), refused(2, 10));
    assert_eq!(write(&[0, 1000001], 1), refused(6, 1));
    assert_eq!(write(&[0], 20), refused(2, 20));
}

#[test]
fn what_is_left_out_is_refused() {
    let number = 1;
    assert_eq!(read_edges(ReadEdges::default()), Err(Refusal { number }));
    assert_eq!(write_edges(WriteEdges::default()), Err(Refusal { number }));
}

#[test]
fn there_is_room_for_the_longest_list() {
    // a ring in four directions, every coupling as long as can be
    let (n, d) = (4096, 4);
    let fwd: Vec<u32> = (0..n * d).map(|bond| (bond / d + 1) % n).collect();
    let bwd: Vec<u32> = (0..n * d).map(|bond| (bond / d + n - 1) % n).collect();
    let (n, d) = (n as usize, d as usize);
    let couplings = vec![-1_000_000; n * d];
    let mut text = vec![0; EDGES_ROOM];
    let list = write_edges(WriteEdges {
        n,
        d,
        fwd: &fwd,
        bwd: &bwd,
        couplings: &couplings,
        text: &mut text,
    })
    .unwrap();
    assert_eq!(list.len(), EDGES_ROOM);
    let mut back = vec![0; n * d];
    let read = read_edges(ReadEdges {
        n,
        d,
        fwd: &fwd,
        bwd: &bwd,
        text: list,
        couplings: &mut back,
    });
    assert_eq!(read, Ok(()));
    assert_eq!(back, couplings);
}
