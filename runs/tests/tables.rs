//! The test of neighbour tables, which asks one sense, beside a model that asks both: every pair of small tables, and damaged large ones.
mod common;

use calls::{Answer, Form, MeterAnswer, Mode, Port, SweepAnswer};
use common::call;
use tsorvenk_runs::case::{Single, Swept};
use tsorvenk_runs::lattices::backward;
use tsorvenk_runs::model::Model;
use tsorvenk_runs::port;
use tsorvenk_runs::rand::Rand;

/// Both senses, as document 01 says it: every entry is a site, and either table leads back from each neighbour by the other.
fn inverse(n: usize, d: usize, fwd: &[u32], bwd: &[u32]) -> bool {
    let leads_back = |there: &[u32], back: &[u32]| {
        (0..n * d).all(|bond| {
            let (site, e) = (bond / d, bond % d);
            let neighbour = there[bond] as usize;
            neighbour < n && back[neighbour * d + e] as usize == site
        })
    };
    leads_back(fwd, bwd) && leads_back(bwd, fwd)
}

/// Two systems that differ at every site, so that an observation of them is never idle.
fn panel(n: usize, d: usize) -> Single {
    let mut case = call(Mode::Perm, Form::Observe, &[0], &["+", "-"]);
    (case.panel.n, case.panel.d) = (n, d);
    (case.panel.fwd, case.panel.bwd) = (vec![0; n * d], vec![0; n * d]);
    case.panel.pins = vec![0; n];
    case.panel.couplings = vec![1; n * d];
    case.lent.spins = [vec![1; n], vec![-1; n]].concat();
    case.lent.labels = vec![9; n];
    case.lent.counts = vec![9; n + 1];
    case
}

/// The same as a sweep of one task.
fn sweep(case: &Single) -> Swept {
    Swept {
        panel: case.panel.clone(),
        t: 1,
        r: 2,
        members: 2,
        order: case.group.clone(),
        masks: vec![0],
        temperatures: vec![],
        references: vec![],
        seeds: vec![],
        choices: case.choices.clone(),
        lent: case.lent.clone(),
    }
}

fn observed(side: &mut dyn Port, case: &Single) -> u8 {
    match case.run(side) {
        (Answer::Refused(number), lent) => {
            assert_eq!(lent, case.lent, "{case:?}");
            number
        }
        _ => 0,
    }
}

fn swept(side: &mut dyn Port, case: &Single) -> u8 {
    match sweep(case).run(side) {
        (SweepAnswer::Refused(number), lent) => {
            assert_eq!(lent, case.lent, "{case:?}");
            number
        }
        _ => 0,
    }
}

fn metered(side: &mut dyn Port, case: &Single, system: usize) -> u8 {
    match side.energy(case.meter(system)) {
        MeterAnswer::Refused(number) => number,
        MeterAnswer::Energy(_) => 0,
    }
}

/// An observation, a sweep and the meter, each as it is and with a system that 5 refuses, and an observation that 3 refuses.
fn asked(side: &mut dyn Port, case: &Single) -> [u8; 7] {
    let mut twice = case.clone();
    twice.group = vec![0, 0];
    let mut unspun = case.clone();
    *unspun.lent.spins.last_mut().unwrap() = 0;
    [
        observed(side, case),
        observed(side, &twice),
        observed(side, &unspun),
        swept(side, case),
        swept(side, &twice),
        metered(side, case, 0),
        metered(side, case, 2),
    ]
}

/// Whether the tables are good, on which the model above and the port must agree; without the port, the model of the runs.
fn judged(port: &mut Option<Box<dyn Port>>, case: &Single) -> bool {
    let panel = &case.panel;
    let good = inverse(panel.n, panel.d, &panel.fwd, &panel.bwd);
    let numbers = match good {
        true => [0, 5, 3, 0, 5, 0, 5],
        false => [4, 4, 3, 4, 4, 4, 4],
    };
    match port {
        Some(port) => assert_eq!(asked(port.as_mut(), case), numbers, "{case:?}"),
        None => assert_eq!(asked(&mut Model, case), numbers, "{case:?}"),
    }
    good
}

/// The next of all tables with entries up to `most`; none after the last.
fn next(table: &mut [u32], most: u32) -> bool {
    for entry in table.iter_mut() {
        if *entry < most {
            *entry += 1;
            return true;
        }
        *entry = 0;
    }
    false
}

/// How many pairs of tables there are with entries up to n, n itself too, and how many of them are accepted.
fn all_pairs(n: usize, d: usize) -> (usize, usize) {
    let mut port = port::linked();
    let mut case = panel(n, d);
    let (mut pairs, mut accepted) = (0, 0);
    loop {
        loop {
            pairs += 1;
            accepted += usize::from(judged(&mut port, &case));
            if !next(&mut case.panel.bwd, n as u32) {
                break;
            }
        }
        if !next(&mut case.panel.fwd, n as u32) {
            return (pairs, accepted);
        }
    }
}

/// Accepted are as many pairs as there are permutations, one for each direction.
#[test]
fn every_pair_of_small_tables() {
    assert_eq!(all_pairs(1, 1), (4, 1));
    assert_eq!(all_pairs(2, 1), (81, 2));
    assert_eq!(all_pairs(3, 1), (4_096, 6));
    assert_eq!(all_pairs(4, 1), (390_625, 24));
    assert_eq!(all_pairs(1, 2), (16, 1));
    assert_eq!(all_pairs(2, 2), (6_561, 4));
    assert_eq!(all_pairs(1, 3), (64, 1));
    assert_eq!(all_pairs(2, 3), (531_441, 8));
    assert_eq!(all_pairs(1, 4), (256, 1));
}

/// Up to 4,096 sites, with a permutation of its own in each direction.
fn good_tables(rand: &mut Rand) -> Single {
    let most = rand.pick(&[4, 40, 400, 4_096]);
    let mut case = panel(rand.range(1, most), rand.range(1, 4));
    let (n, d) = (case.panel.n, case.panel.d);
    let ways: Vec<Vec<usize>> = (0..d).map(|_| rand.permutation(n)).collect();
    let to = |bond: usize| ways[bond % d][bond / d] as u32;
    case.panel.fwd = (0..n * d).map(to).collect();
    case.panel.bwd = backward(n, d, &case.panel.fwd);
    case
}

/// One fault, or what looks like one: at a small n another entry may be the same.
fn damage(rand: &mut Rand, case: &mut Single) {
    let (n, d) = (case.panel.n, case.panel.d);
    let panel = &mut case.panel;
    let (one, other) = match rand.range(0, 1) {
        0 => (&mut panel.fwd, &mut panel.bwd),
        _ => (&mut panel.bwd, &mut panel.fwd),
    };
    let (site, place) = (rand.range(0, n - 1), rand.range(0, n - 1));
    let (e, way) = (rand.range(0, d - 1), rand.range(0, d - 1));
    let (bond, also) = (site * d + e, place * d + e);
    match rand.range(0, 9) {
        // past the sites: the first, one that a panel could have, one whose cell is there again at 32 bits, the largest
        0 => one[bond] = n as u32,
        1 => one[bond] = rand.range(n, 4_096.max(n)) as u32,
        2 => one[bond] = one[bond].wrapping_add(1 << rand.range(12, 31)),
        3 => one[bond] = u32::MAX,
        // another site, the same site twice, two that are exchanged in their direction or across directions
        4 => one[bond] = place as u32,
        5 => one[bond] = one[also],
        6 => one.swap(bond, also),
        7 => one.swap(bond, place * d + way),
        // two directions of one table are exchanged
        8 => (0..n).for_each(|i| one.swap(i * d + e, i * d + way)),
        // two neighbours are exchanged in both tables, as they should be
        _ => {
            let (to, too) = (one[bond] as usize, one[also] as usize);
            one.swap(bond, also);
            if to < n && too < n {
                other.swap(to * d + e, too * d + e);
            }
        }
    }
}

#[test]
fn damaged_tables() {
    let mut rand = Rand::new(3);
    let mut port = port::linked();
    let mut accepted = 0;
    for _ in 0..20_000 {
        let mut case = good_tables(&mut rand);
        for _ in 0..rand.range(1, 2) {
            damage(&mut rand, &mut case);
        }
        accepted += usize::from(judged(&mut port, &case));
    }
    assert!((1_000..10_000).contains(&accepted), "{accepted}");
}
