//! On panels of 8 by 8 the plan is the best there is, worked out here by a transfer matrix from row to row; on larger ones from seam to seam.
mod common;
use std::fs;

const SIDE: usize = 8;

/// The couplings of a list, to the right and down, read here once more and without the library.
struct Couplings {
    right: Vec<Vec<i64>>,
    down: Vec<Vec<i64>>,
}

fn couplings(list: &str, side: usize) -> Couplings {
    let mut c = Couplings { right: vec![vec![0; side]; side], down: vec![vec![0; side]; side] };
    for line in list.lines().skip(1) {
        let numbers: Vec<i64> = line.split(' ').map(|word| word.parse().unwrap()).collect();
        let (i, j) = (numbers[0].min(numbers[1]) as usize - 1, numbers[0].max(numbers[1]) as usize - 1);
        match j - i {
            1 => c.right[i / side][i % side] = numbers[2],
            down if down == side => c.down[i / side][i % side] = numbers[2],
            _ => panic!("{line}"),
        }
    }
    c
}

/// The spin of a column in a row's pattern.
fn spin(pattern: usize, column: usize) -> i64 {
    if pattern >> column & 1 == 1 {
        1
    } else {
        -1
    }
}

/// The lowest total of all 2^64 plans that keep the pins (+1, -1, or 0 for none): row by row the lowest for each of its 256 patterns.
fn optimum(c: &Couplings, pins: &[i64]) -> i64 {
    let keeps = |row: usize, pattern: usize| (0..SIDE).all(|column| pins[row * SIDE + column] * spin(pattern, column) >= 0);
    let inside = |row: usize, pattern: usize| {
        let pairs = (0..SIDE - 1).map(|column| -c.right[row][column] * spin(pattern, column) * spin(pattern, column + 1));
        pairs.sum::<i64>()
    };
    let mut lowest: Vec<Option<i64>> = (0..256).map(|pattern| keeps(0, pattern).then(|| inside(0, pattern))).collect();
    for row in 1..SIDE {
        // the sum over columns depends on which of them agree alone
        let between: Vec<i64> =
            (0..256).map(|agree| (0..SIDE).map(|column| -c.down[row - 1][column] * spin(agree, column)).sum()).collect();
        let from_above = |pattern: usize| {
            let sums = (0..256).filter_map(|above| lowest[above].map(|sum| sum + between[255 - (above ^ pattern)]));
            sums.min().map(|sum| sum + inside(row, pattern))
        };
        lowest = (0..256).map(|pattern| if keeps(row, pattern) { from_above(pattern) } else { None }).collect();
    }
    lowest.into_iter().flatten().min().unwrap()
}

/// The lowest total of all plans without pins, seam by seam: for each pattern of the last row's worth of seams the lowest so far.
fn by_seams(c: &Couplings) -> i64 {
    let side = c.right.len();
    let mut lowest = vec![0i32; 1 << side];
    for row in 0..side {
        for column in 0..side {
            let above = if row == 0 { 0 } else { c.down[row - 1][column] as i32 };
            let left = if column == 0 { 0 } else { c.right[row][column - 1] as i32 };
            let bit = 1 << column;
            for pattern in (0..1 << side).filter(|pattern| pattern & bit == 0) {
                // the seam above was -1 or +1; its place in the pattern becomes the new seam's
                let (minus, plus) = (lowest[pattern], lowest[pattern | bit]);
                let left = if column > 0 && pattern >> (column - 1) & 1 == 1 { left } else { -left };
                lowest[pattern] = (minus - above).min(plus + above) + left;
                lowest[pattern | bit] = (minus + above).min(plus - above) - left;
            }
        }
    }
    lowest.into_iter().min().unwrap().into()
}

/// The total of the plan in a text, worked out from its faces, and the total that it says.
fn told(plan: &str, c: &Couplings) -> (i64, i64) {
    let faces: Vec<i64> = plan
        .lines()
        .skip_while(|line| *line != "seam row column face")
        .skip(1)
        .map(|line| if line.split(' ').nth(3) == Some("A") { 1 } else { -1 })
        .collect();
    assert_eq!(faces.len(), SIDE * SIDE);
    let at = |row: usize, column: usize| faces[row * SIDE + column];
    let mut total = 0;
    for row in 0..SIDE {
        for column in 0..SIDE {
            // couplings over the edge are 0
            total -= c.right[row][column] * at(row, column) * at(row, (column + 1) % SIDE);
            total -= c.down[row][column] * at(row, column) * at((row + 1) % SIDE, column);
        }
    }
    let line = plan.lines().find(|line| line.starts_with("total distortion: ")).unwrap();
    (total, line.split(' ').nth(2).unwrap().parse().unwrap())
}

fn reaches(name: &str, largest: u32, seeds: std::ops::Range<u64>, flags: &str, pinned: &[(usize, i64)]) {
    let folder = common::folder(name);
    let mut pins = [0; SIDE * SIDE];
    let mut text = String::new();
    for &(seam, face) in pinned {
        pins[seam - 1] = face;
        text += &format!("{seam} {}\n", if face > 0 { 'A' } else { 'B' });
    }
    fs::write(folder.join("pins.txt"), text).unwrap();
    for seed in seeds {
        let list = common::list("8x8", [seed, 2, 3, 4], largest);
        fs::write(folder.join("panel.txt"), &list).unwrap();
        common::good(&folder, &format!("--grid 8x8 --list panel.txt --pins pins.txt --quiet {flags} --out {seed}"));
        let plan = fs::read_to_string(folder.join(seed.to_string()).join("plan.txt")).unwrap();
        let c = couplings(&list, SIDE);
        let (total, said) = told(&plan, &c);
        assert_eq!((total, said), (optimum(&c, &pins), total), "{name} {seed}");
        for (seam, face) in pinned {
            let line = plan.lines().filter(|line| line.ends_with(" welded already")).find(|line| line.starts_with(&format!("{seam} ")));
            assert_eq!(line.unwrap().split(' ').nth(3), Some(if *face > 0 { "A" } else { "B" }));
        }
    }
}

#[test]
fn the_transfer_matrix_is_right_on_what_can_be_counted() {
    // all couplings 1: the best is all alike; with one pair of pins against each other a corner turns
    let mut all = Couplings { right: vec![vec![1; SIDE]; SIDE], down: vec![vec![1; SIDE]; SIDE] };
    all.right.iter_mut().for_each(|row| row[SIDE - 1] = 0);
    all.down[SIDE - 1].fill(0);
    assert_eq!((optimum(&all, &[0; 64]), by_seams(&all)), (-112, -112));
    let mut pins = [0; 64];
    (pins[0], pins[63]) = (1, -1);
    assert_eq!(optimum(&all, &pins), -112 + 4);
    for seed in 1..9 {
        let c = couplings(&common::list("8x8", [seed, 2, 3, 4], 40), SIDE);
        assert_eq!(optimum(&c, &[0; 64]), by_seams(&c));
    }
}

/// What a day of this many sweeps on a square panel says its total is, and the lowest there is.
fn larger(side: usize, seed: u64, sweeps: u32) -> (i64, i64) {
    let folder = common::folder(&format!("best-{side}-{seed}"));
    let list = common::list(&format!("{side}x{side}"), [seed, 2, 3, 4], 40);
    fs::write(folder.join("panel.txt"), &list).unwrap();
    common::good(&folder, &format!("--grid {side}x{side} --list panel.txt --quiet --sweeps {sweeps}"));
    let plan = fs::read_to_string(folder.join("plan/plan.txt")).unwrap();
    let line = plan.lines().find(|line| line.starts_with("total distortion: ")).unwrap();
    (line.split(' ').nth(2).unwrap().parse().unwrap(), by_seams(&couplings(&list, side)))
}

#[test]
fn sixteen_by_sixteen() {
    for seed in 1..6 {
        let (total, lowest) = larger(16, seed, 400);
        assert_eq!(total, lowest, "{seed}");
    }
}

/// The panels of docs/DAY.md: half a minute and 64 MB for each.
#[test]
#[ignore]
fn twenty_four_by_twenty_four() {
    for seed in 1..6 {
        let (total, lowest) = larger(24, seed, 2000);
        println!("panel {seed}: {total}, the lowest is {lowest}");
        assert_eq!(total, lowest, "{seed}");
    }
}

#[test]
fn pair_sweeps_reach_the_best() {
    reaches("best-pair", 40, 1..9, "--sweeps 200 --replicas 2 --temperatures 8", &[]);
}

#[test]
fn with_couplings_of_one_size_too() {
    reaches("best-signs", 1, 1..5, "--sweeps 200 --replicas 2 --temperatures 8", &[]);
}

#[test]
fn with_pins_too() {
    let pins = [(1, 1), (8, -1), (28, 1), (29, -1), (37, 1), (64, 1)];
    reaches("best-pins", 40, 1..5, "--sweeps 200 --replicas 2 --temperatures 8", &pins);
    reaches("best-pins-cmr", 40, 1..3, "--sweeps 200 --replicas 2 --temperatures 8 --modes cmr,gperm,jorg:wolff", &pins);
}

#[test]
fn every_mode_and_form_reaches_it() {
    for mode in
        ["none", "houd", "perm", "gperm", "jorg", "cmr", "pair:wolff", "pair:grow", "perm:grow:3", "gperm:grow", "jorg:grow", "cmr:grow"]
    {
        let flags = format!("--sweeps 300 --replicas 4 --temperatures 8 --modes {mode}");
        reaches(&format!("best-{}", mode.replace(':', "-")), 40, 1..2, &flags, &[]);
    }
}
