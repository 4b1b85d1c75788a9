//! The draws beside plain loops, 4,096 entries each; both start from one source, and must end in one.
#![cfg_attr(not(port), allow(dead_code, unused_imports))] // without the library there is nothing to draw beside
use crate::Bench;
use std::hint::black_box;
use tsorvenk_runs::draws::Source as Plain;
use tsorvenk_runs::timing::median;

const COUNT: usize = 4096;
const ROW: usize = 8;
const SEED: [u64; 4] = [1, 2, 3, 4];

fn below(source: &mut Plain, m: u32) -> u32 {
    let limit = u64::from(m) * ((1 << 32) / u64::from(m));
    loop {
        let high = source.word() >> 32;
        if high < limit {
            return (high % u64::from(m)) as u32;
        }
    }
}

fn permutation(source: &mut Plain, row: &mut [u8]) {
    row.iter_mut().enumerate().for_each(|(k, v)| *v = k as u8);
    for place in (1..row.len()).rev() {
        row.swap(place, below(source, place as u32 + 1) as usize);
    }
}

fn not_identity(source: &mut Plain, row: &mut [u8]) {
    loop {
        permutation(source, row);
        if row.iter().enumerate().any(|(k, &v)| usize::from(v) != k) {
            return;
        }
    }
}

/// A word as a function that is called, as the exported one is.
#[inline(never)]
fn word(source: &mut Plain) -> u64 {
    source.word()
}

#[inline(never)]
fn called_below(source: &mut Plain, m: u32) -> u32 {
    below(source, m)
}

#[inline(never)]
fn called_permutation(source: &mut Plain, row: &mut [u8]) {
    permutation(source, row)
}

/// A word with the tests of the exported one. Its words are looked at one by one: compared as an array they are loaded at
/// once, which has to wait for the four stores of the word before.
#[inline(never)]
fn tested_word(source: &mut [u64], word: &mut [u64]) -> u8 {
    if source.len() != 4 {
        return 2;
    }
    if source[0] == 0 && source[1] == 0 && source[2] == 0 && source[3] == 0 {
        return 12;
    }
    if word.len() != 1 {
        return 2;
    }
    let mut stepped = Plain([source[0], source[1], source[2], source[3]]);
    word[0] = stepped.word();
    source.copy_from_slice(&stepped.0);
    0
}

/// Prints the time of both sides, which draw into buffers of their own.
#[cfg(port)]
fn line<T: Copy + Default + PartialEq>(
    repetitions: usize,
    name: &str,
    length: usize,
    mut port: impl FnMut(&mut tsorvenk::Source, &mut [T]),
    mut plain: impl FnMut(&mut Plain, &mut [T]),
) {
    let mut ours = (
        tsorvenk::Source::new(SEED).unwrap(),
        vec![T::default(); length],
    );
    let all = median(
        repetitions,
        &mut ours,
        |_| {},
        |(source, out)| port(source, black_box(out)),
    );
    let mut theirs = (Plain(SEED), vec![T::default(); length]);
    let rust = median(
        repetitions,
        &mut theirs,
        |_| {},
        |(source, out)| plain(source, black_box(out)),
    );
    assert!(
        ours.0.words() == theirs.0 .0 && ours.1 == theirs.1,
        "{name}"
    );
    println!(
        "{name:32} port {all:9.2} | plain {rust:9.2} ({:5.2})",
        all / rust
    );
}

impl Bench {
    #[cfg(port)]
    pub fn draws(&mut self) {
        let times = self.repetitions;
        line(
            times,
            "4,096 words, one by one",
            COUNT,
            |source, out: &mut [u64]| out.iter_mut().for_each(|w| *w = source.word().unwrap()),
            |source, out| out.iter_mut().for_each(|w| *w = word(source)),
        );
        line(
            times,
            "the same, plain with its tests",
            COUNT,
            |source, out: &mut [u64]| out.iter_mut().for_each(|w| *w = source.word().unwrap()),
            |source, out| {
                let each = out.chunks_mut(1);
                each.for_each(|w| assert_eq!(tested_word(black_box(&mut source.0), w), 0))
            },
        );
        line(
            times,
            "the same, plain inlined",
            COUNT,
            |source, out: &mut [u64]| out.iter_mut().for_each(|w| *w = source.word().unwrap()),
            |source, out| out.iter_mut().for_each(|w| *w = source.word()),
        );
        line(
            times,
            "4,096 coins, one by one",
            COUNT,
            |source, out: &mut [u8]| out.iter_mut().for_each(|c| *c = source.coin().unwrap()),
            |source, out| out.iter_mut().for_each(|c| *c = (word(source) >> 63) as u8),
        );
        line(
            times,
            "4,096 below 1000, one by one",
            COUNT,
            |source, out: &mut [u32]| {
                let m = black_box(1000);
                out.iter_mut().for_each(|v| *v = source.below(m).unwrap())
            },
            |source, out| {
                let m = black_box(1000);
                out.iter_mut().for_each(|v| *v = called_below(source, m))
            },
        );
        line(
            times,
            "4,096 rows of eight, one by one",
            COUNT * ROW,
            |source, out: &mut [u8]| {
                let rows = out.chunks_mut(ROW);
                rows.for_each(|row| source.permutation(row).unwrap())
            },
            |source, out| {
                let rows = out.chunks_mut(ROW);
                rows.for_each(|row| called_permutation(source, row))
            },
        );
        line(
            times,
            "4,096 flips",
            COUNT,
            |source, out: &mut [u8]| source.fill_flips(out).unwrap(),
            |source, out| out.iter_mut().for_each(|f| *f = source.coin()),
        );
        for m in [3, 1000, 4096] {
            line(
                times,
                &format!("4,096 numbers below {m}"),
                COUNT,
                |source, out: &mut [u32]| source.fill_below(black_box(m), out).unwrap(),
                |source, out| {
                    out.iter_mut()
                        .for_each(|v| *v = below(source, black_box(m)))
                },
            );
        }
        line(
            times,
            "4,096 bytes below 4",
            COUNT,
            |source, out: &mut [u8]| source.fill_bytes_below(black_box(4), out).unwrap(),
            |source, out| {
                out.iter_mut()
                    .for_each(|v| *v = below(source, black_box(4)) as u8)
            },
        );
        line(
            times,
            "4,096 grey numbers of Wolff",
            COUNT,
            |source, out: &mut [u8]| source.wolff_grey(out).unwrap(),
            |source, out| out.iter_mut().for_each(|v| *v = 1 + below(source, 3) as u8),
        );
        line(
            times,
            "4,096 permutations by number",
            COUNT,
            |source, out: &mut [u8]| source.fill_numbers(out).unwrap(),
            |source, out| {
                out.iter_mut()
                    .for_each(|v| *v = below(source, black_box(120)) as u8)
            },
        );
        line(
            times,
            "4,096 of Wolff by number",
            COUNT,
            |source, out: &mut [u8]| source.wolff_numbers(out).unwrap(),
            |source, out| {
                out.iter_mut()
                    .for_each(|v| *v = 1 + below(source, black_box(119)) as u8)
            },
        );
        line(
            times,
            "4,096 rows of eight",
            COUNT * ROW,
            |source, out: &mut [u8]| source.fill_permutations(ROW, out).unwrap(),
            |source, out| out.chunks_mut(ROW).for_each(|row| permutation(source, row)),
        );
        line(
            times,
            "4,096 rows of eight of Wolff",
            COUNT * ROW,
            |source, out: &mut [u8]| source.wolff_permutation(ROW, out).unwrap(),
            |source, out| {
                out.chunks_mut(ROW)
                    .for_each(|row| not_identity(source, row))
            },
        );
    }

    #[cfg(not(port))]
    pub fn draws(&mut self) {
        println!("left out: the library was not found when this was built");
    }
}
