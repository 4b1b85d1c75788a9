//! Edge lists on inputs worked by hand: the model's answers, and the port's where it is there.
use tsorvenk_runs::edges::{self, port, Lattice};
use tsorvenk_runs::lattices::backward;

const LENT: i32 = 77;

fn lattice(n: usize, d: usize, fwd: &[u32]) -> Lattice {
    Lattice {
        n,
        d,
        fwd: fwd.to_vec(),
        bwd: backward(n, d, fwd),
    }
}

/// Two sites, each the other's neighbour, and so two bonds.
fn two() -> Lattice {
    lattice(2, 1, &[1, 0])
}

/// The number and the table after a call, on which model and port must agree.
fn read(lattice: &Lattice, text: &[u8], couplings: usize) -> (u8, Vec<i32>) {
    let mut table = vec![LENT; couplings];
    let number = edges::read(lattice, text, &mut table);
    let mut found = vec![LENT; couplings];
    if let Some(answer) = port::read(lattice, text, &mut found) {
        let text = String::from_utf8_lossy(text);
        assert_eq!((answer, &found), (number, &table), "{text:?}");
    }
    (number, table)
}

fn filled(lattice: &Lattice, text: &str, table: &[i32]) {
    let answer = read(lattice, text.as_bytes(), table.len());
    assert_eq!(answer, (0, table.to_vec()), "{text:?}");
}

fn refused(number: u8, lattice: &Lattice, text: &str) {
    let couplings = lattice.n * lattice.d;
    let answer = read(lattice, text.as_bytes(), couplings);
    assert_eq!(answer, (number, vec![LENT; couplings]), "{text:?}");
}

fn write(lattice: &Lattice, table: &[i32], room: usize, places: usize) -> (u8, String) {
    let mut text = vec![b'x'; room];
    let mut written = vec![LENT as usize; places];
    let (mut found, mut length) = (text.clone(), written.clone());
    let number = edges::write(lattice, table, &mut text, &mut written);
    if let Some(answer) = port::write(lattice, table, &mut found, &mut length) {
        assert_eq!((answer, &found, &length), (number, &text, &written));
    }
    if number == 0 {
        assert!(text[written[0]..].iter().all(|&byte| byte == b'x'));
        text.truncate(written[0]);
    } else {
        assert!(written.iter().all(|&length| length == LENT as usize));
        assert!(text.iter().all(|&byte| byte == b'x'));
    }
    (number, String::from_utf8(text).unwrap())
}

#[test]
fn a_line_belongs_to_the_lowest_bond_that_is_left() {
    // a square: 1 2 / 3 4, each direction of two sites, so that every pair of neighbours has two bonds
    let square = lattice(4, 2, &[1, 2, 0, 3, 3, 0, 2, 1]);
    filled(&square, "4 1\n2 1 5\n", &[5, 0, 0, 0, 0, 0, 0, 0]);
    let both = "4 3\n2 1 5\n4 2 -7\n1 2 6\n";
    filled(&square, both, &[5, 0, 6, -7, 0, 0, 0, 0]);
    refused(13, &square, "4 3\n2 1 5\n1 2 6\n1 2 0\n");
    refused(13, &square, "4 1\n1 4 5\n");
    // a site that is its own neighbour, in the second direction
    let looped = lattice(2, 2, &[1, 0, 0, 1]);
    filled(&looped, "2 2\n1 1 5\n2 1 3\n", &[3, 5, 0, 0]);
    refused(13, &looped, "2 2\n1 1 5\n1 1 5\n");
    refused(13, &lattice(1, 1, &[0]), "1 2\n1 1 5\n1 1 5\n");
}

#[test]
fn a_bond_filled_with_0_is_filled() {
    filled(&two(), "2 2\n1 2 0\n1 2 4\n", &[0, 4]);
    refused(13, &two(), "2 3\n1 2 0\n1 2 0\n1 2 4\n");
}

#[test]
fn the_form_is_exact() {
    filled(&two(), "2 0\n", &[0, 0]);
    filled(&two(), "2 1\n1 2 -1000000\n", &[-1_000_000, 0]);
    for text in [
        "",
        "\n",
        "2\n",
        "2 0",
        "2 0\n\n",
        "2 0 \n",
        " 2 0\n",
        "2  0\n",
        "2\t0\n",
        "2 0\r\n",
        "2 00\n",
        "2 -0\n",
        "+2 0\n",
        "2 0\n0",
        "2 1\n",
        "2 0\n1 2 5\n",
        "2 2\n1 2 5\n",
        "3 1\n1 2 5\n",
        "02 1\n1 2 5\n",
        "2 1\n1 2\n",
        "2 1\n1 2 5 \n",
        "2 1\n1 2 5 6\n",
        "2 1\n 1 2 5\n",
        "2 1\n1 2 05\n",
        "2 1\n1 2 00\n",
        "2 1\n1 2 -0\n",
        "2 1\n1 2 --5\n",
        "2 1\n1 2 +5\n",
        "2 1\n1 2 5.0\n",
        "2 1\n1 2 5e3\n",
        "2 1\n1 2 -\n",
        "2 1\n1 2 \n",
        "2 1\n01 2 5\n",
        "2 1\n-1 2 5\n",
        "2 1\n0 2 5\n",
        "2 1\n1 3 5\n",
        "2 1\n1 2 5",
        "2 1\r\n1 2 5\r\n",
        "2 1\n1 2 5\n\0",
        "\u{feff}2 0\n",
        "2 18446744073709551617\n1 2 5\n",
        "18446744073709551618 0\n",
        "2 1\n18446744073709551617 2 5\n",
    ] {
        refused(13, &two(), text);
    }
}

#[test]
fn thirteen_anywhere_comes_before_six() {
    refused(6, &two(), "2 1\n1 2 1000001\n");
    refused(6, &two(), "2 1\n1 2 -1000001\n");
    refused(6, &two(), "2 1\n1 2 18446744073709551616\n");
    refused(6, &two(), &format!("2 1\n1 2 -{}\n", "9".repeat(5000)));
    refused(13, &two(), "2 2\n1 2 1000001\n1 2 01\n");
    refused(13, &two(), "2 3\n1 2 1000001\n1 2 1\n");
    refused(13, &two(), "2 3\n1 2 1000001\n1 2 1\n1 2 1\n");
    refused(13, &two(), "2 1\n1 2 1000001\n\n");
}

#[test]
fn the_tests_before_the_text() {
    let wrong = "no list";
    for (n, d) in [(0, 1), (4097, 1), (2, 0), (2, 5), (usize::MAX, 4)] {
        let outside = Lattice { n, d, ..two() };
        assert_eq!(read(&outside, wrong.as_bytes(), 2).0, 1);
        assert_eq!(write(&outside, &[0, 2_000_000], 0, 0).0, 1);
    }
    for couplings in [0, 1, 3] {
        let (number, table) = read(&two(), b"2 0\n", couplings);
        assert_eq!((number, table), (2, vec![LENT; couplings]));
    }
    let crossed = Lattice {
        bwd: vec![0, 1],
        ..two()
    };
    refused(4, &crossed, wrong);
    assert_eq!(write(&crossed, &[0, 2_000_000], 0, 1).0, 4);
    assert_eq!(write(&crossed, &[0, 2_000_000], 0, 2).0, 2);
}

#[test]
fn what_is_not_0_is_listed_in_the_order_of_bonds() {
    let square = lattice(4, 2, &[1, 2, 0, 3, 3, 0, 2, 1]);
    let table = [5, 0, 6, -7, 0, 0, 0, 1_000_000];
    let list = "4 4\n1 2 5\n2 1 6\n2 4 -7\n4 2 1000000\n";
    assert_eq!(write(&square, &table, 50, 1), (0, list.to_string()));
    assert_eq!(write(&square, &table, list.len(), 1).0, 0);
    assert_eq!(write(&square, &table, list.len() - 1, 1).0, 2);
    assert_eq!(write(&square, &[1_000_001; 8], 0, 1).0, 6);
    assert_eq!(write(&square, &[0; 8], 4, 1), (0, "4 0\n".to_string()));
    filled(&square, list, &[5, 0, 6, -7, 0, 0, 0, 1_000_000]);
}

#[test]
fn a_double_bond_may_come_back_in_the_other_place() {
    let (number, list) = write(&two(), &[0, 5], 20, 1);
    assert_eq!((number, &list[..]), (0, "2 1\n2 1 5\n"));
    filled(&two(), &list, &[5, 0]);
}

/// The list that docs/EDGES.md shows, and its lines in another order and from the other end.
#[test]
fn the_example_of_the_documents() {
    let ring = lattice(3, 1, &[1, 2, 0]);
    let (table, list) = ([1, 0, -3], "3 2\n1 2 1\n3 1 -3\n");
    filled(&ring, list, &table);
    filled(&ring, "3 2\n1 3 -3\n2 1 1\n", &table);
    assert_eq!(write(&ring, &table, 99, 1), (0, list.to_string()));
}
