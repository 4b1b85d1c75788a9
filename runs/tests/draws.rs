//! The draws on inputs worked by hand: the model's answers, and the port's where it is there.
use tsorvenk_runs::draws::backwards::giving;
use tsorvenk_runs::draws::make::Case;
use tsorvenk_runs::draws::{port, Draw, Out, Source};

/// The number, the source and the buffer after a call, on which model and port must agree.
fn run(draw: Draw, source: &[u64], out: Out) -> (u8, Vec<u64>, Out) {
    let case = Case {
        draw,
        source: source.to_vec(),
        out,
    };
    let mut after = case.clone();
    let number = draw.answer(&mut after.source, &mut after.out);
    if let Some(found) = port::run(&case) {
        assert_eq!((number, after.clone()), found, "{case:?}");
    }
    assert!(number == 0 || after == case, "{case:?}");
    (number, after.source, after.out)
}

fn drawn(draw: Draw, source: Source, length: usize) -> Out {
    let (number, _, out) = run(draw, &source.0, draw.lent(length));
    assert_eq!(number, 0);
    out
}

fn refused(number: u8, draw: Draw, source: &[u64], length: usize) {
    assert_eq!(run(draw, source, draw.lent(length)).0, number, "{draw:?}");
}

/// A word with these high 32 bits.
fn high(high: u64) -> u64 {
    high << 32 | 0x1234_5678
}

#[test]
fn the_words_of_a_seed() {
    let mut source = vec![1, 2, 3, 4];
    for word in [
        11520,
        0,
        1509978240,
        1215971899390074240,
        1216172134540287360,
        607988272756665600,
        16172922978634559625,
        8476171486693032832,
    ] {
        let (number, stepped, out) = run(Draw::Word, &source, Draw::Word.lent(1));
        assert_eq!((number, out), (0, Out::Words(vec![word])));
        source = stepped;
    }
}

#[test]
fn the_top_bit_is_the_coin() {
    let source = giving([1 << 63, u64::MAX >> 1, u64::MAX, 0]);
    assert_eq!(drawn(Draw::Flips, source, 4), Out::Bytes(vec![1, 0, 1, 0]));
}

#[test]
fn a_word_is_taken_again_from_the_limit_on() {
    // 2^32 is 1 more than a multiple of 3, and 256 more than one of 4,095
    let last = u64::from(u32::MAX);
    let source = giving([high(last - 1), high(last), high(3), high(4)]);
    let numbers = drawn(Draw::Numbers(3), source, 3);
    assert_eq!(numbers, Out::Numbers(vec![2, 0, 1]));
    let (limit, m) = ((1 << 32) - 256, 4095);
    let source = giving([high(limit - 1), high(limit), high(last), high(4096)]);
    let numbers = drawn(Draw::Numbers(m), source, 2);
    assert_eq!(numbers, Out::Numbers(vec![4094, 1]));
    // nothing is taken again where m is a power of two, and below 1 there is 0 alone, by a word too
    let source = giving([high(last), high(0), high(0), high(0)]);
    assert_eq!(
        drawn(Draw::Below(4096), source, 1),
        Out::Numbers(vec![4095])
    );
    let (_, stepped, out) = run(Draw::Below(1), &source.0, Draw::Below(1).lent(1));
    assert_eq!(out, Out::Numbers(vec![0]));
    assert_ne!(stepped, source.0);
}

#[test]
fn places_are_exchanged_from_the_last_one_down() {
    // of 0 1 2 3 4: place 4 with 1, place 3 with 3, place 2 with 0, place 1 with 1
    let source = giving([high(1), high(3), high(0), high(1)]);
    let row = drawn(Draw::Permutation(5), source, 5);
    assert_eq!(row, Out::Bytes(vec![2, 4, 0, 3, 1]));
}

#[test]
fn a_permutation_by_number_is_one_word() {
    // 2^32 is 16 more than a multiple of 120, and 18 more than one of 119
    let limit = (1 << 32) - 16;
    let source = giving([high(limit - 1), high(limit), high(120), high(59)]);
    assert_eq!(drawn(Draw::Orders, source, 3), Out::Bytes(vec![119, 0, 59]));
    let limit = (1 << 32) - 18;
    let source = giving([high(limit - 1), high(limit), high(119), high(59)]);
    let numbers = drawn(Draw::WolffOrders, source, 3);
    assert_eq!(numbers, Out::Bytes(vec![119, 1, 60]));
    // the same words are one row of five
    let row = drawn(Draw::Rows(5), source, 5);
    assert_ne!(row, drawn(Draw::Orders, source, 5));
}

#[test]
fn an_identity_is_drawn_again_as_a_whole() {
    // of 0 1 2: place 2 with 2 and 1 with 1 is the identity; then place 2 with 2 and 1 with 0
    let source = giving([high(2), high(1), high(2), high(0)]);
    let plain = drawn(Draw::Rows(3), source, 6);
    assert_eq!(plain, Out::Bytes(vec![0, 1, 2, 1, 0, 2]));
    let other = drawn(Draw::WolffRows(3), source, 3);
    assert_eq!(other, Out::Bytes(vec![1, 0, 2]));
}

#[test]
fn the_first_fault_in_order_refuses() {
    let (good, zero) = ([1, 2, 3, 4], [0; 4]);
    // a source not of four words, before all else
    for source in [&[][..], &[0; 3], &[0; 5]] {
        refused(2, Draw::Below(0), source, 0);
        refused(2, Draw::Rows(1), source, 3);
        refused(2, Draw::Orders, source, 3);
        refused(2, Draw::WolffOrders, source, 3);
    }
    // then 12, before the length of the buffer
    refused(12, Draw::Word, &zero, 0);
    refused(12, Draw::Flips, &zero, 0);
    refused(12, Draw::WolffGreys, &zero, 4);
    refused(12, Draw::Orders, &zero, 4);
    refused(12, Draw::WolffOrders, &zero, 0);
    for m in [0, 4097] {
        refused(12, Draw::Below(m), &good, 0);
        refused(12, Draw::Numbers(m), &good, 4);
    }
    for m in [0, 257] {
        refused(12, Draw::Bytes(m), &good, 4);
    }
    for members in [0, 1, 9] {
        refused(12, Draw::Permutation(members), &good, 4);
        refused(12, Draw::Rows(members), &good, 5);
        refused(12, Draw::WolffRows(members), &good, 5);
    }
    // then the length
    for length in [0, 2] {
        refused(2, Draw::Word, &good, length);
        refused(2, Draw::Coin, &good, length);
        refused(2, Draw::Below(3), &good, length);
        refused(2, Draw::Permutation(4), &good, length);
        refused(2, Draw::Rows(4), &good, length + 3);
        refused(2, Draw::WolffRows(4), &good, length + 3);
    }
}
