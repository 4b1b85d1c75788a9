//! Every single move on a few sites: all tables of one direction, spins, couplings, cuts and choices.
use crate::case::{Choices, Lent, Panel, Single};
use crate::lattices::backward;
use crate::make::{UNTOUCHED, UNTOUCHED_BYTE};
use crate::model::lengths;
use calls::{Coding, Form, Keeps, Mode};

/// All orders of 0 to len-1.
fn orders(len: usize) -> Vec<Vec<u8>> {
    if len == 0 {
        return vec![vec![]];
    }
    let insert = |shorter: &Vec<u8>, at: usize| {
        let mut order = shorter.clone();
        order.insert(at, len as u8 - 1);
        order
    };
    orders(len - 1)
        .iter()
        .flat_map(|shorter| (0..len).map(move |at| insert(shorter, at)))
        .collect()
}

/// Draws a number's digits, each with a radix of its own; their product is how many numbers there are.
struct Digits {
    number: usize,
    all: usize,
}

impl Digits {
    fn take(&mut self, radix: usize) -> usize {
        let digit = self.number % radix;
        self.number /= radix;
        self.all = self.all.saturating_mul(radix);
        digit
    }

    fn pick<T: Copy>(&mut self, from: &[T]) -> T {
        from[self.take(from.len())]
    }
}

/// Couplings by which every bond is told from the others, where the mode draws none: totals are kept in all these cases.
const TOLD_APART: [i32; 3] = [1, -2, 4];

/// The case of one number and how many numbers there are. At T = 1 a bond of strength 1 is compared with 4 or 2, so
/// the cuts are below, between and equal.
fn case(mode: Mode, form: Form, n: usize, members: usize, number: usize) -> (Single, usize) {
    let mut digits = Digits { number, all: 1 };
    let exact = lengths(mode, form, n, 1, members, 1);
    let fwd: Vec<u32> = orders(n)[digits.take(orders(n).len())]
        .iter()
        .map(|&site| u32::from(site))
        .collect();
    let permutations = orders(members);
    let proper: Vec<Vec<u8>> = permutations
        .iter()
        .filter(|p| !p.is_sorted())
        .cloned()
        .collect();
    let from = if form.one_cluster() {
        &proper
    } else {
        &permutations
    };
    let greys: &[u8] = if form.one_cluster() {
        &[1, 2, 3]
    } else {
        &[0, 1, 2, 3]
    };
    let several = |count: Option<usize>| 0..count.unwrap_or(0);
    let spins = (0..members * n).map(|_| digits.pick(&[1, -1])).collect();
    let lent = Lent {
        totals: vec![0; members],
        ..Lent::filled(exact, spins, UNTOUCHED, UNTOUCHED_BYTE)
    };
    let couplings = match exact.couplings {
        Some(bonds) => (0..bonds).map(|_| digits.pick(&[1, -1, 0])).collect(),
        None => TOLD_APART[..n].to_vec(),
    };
    let choices = Choices {
        cuts: several(exact.cuts)
            .map(|_| digits.pick(&[1.0, 2.0, 4.0]))
            .collect(),
        flips: several(exact.flips).map(|_| digits.pick(&[0, 1])).collect(),
        perms: several(exact.perms.map(|all| all / members))
            .flat_map(|_| from[digits.take(from.len())].clone())
            .collect(),
        greys: several(exact.greys).map(|_| digits.pick(greys)).collect(),
    };
    let single = Single {
        panel: Panel {
            mode,
            form,
            coding: Coding::Rows,
            keeps: Keeps::Totals,
            n,
            d: 1,
            s: members,
            team: 0,
            owners: vec![0; members],
            bwd: backward(n, 1, &fwd),
            pins: vec![0; n],
            fwd,
            couplings,
        },
        group: (0..members as u32).collect(),
        temperature: 1.0,
        reference: digits.take(if mode == Mode::Gperm { n } else { 1 }),
        seed: digits.take(if form.one_cluster() { n } else { 1 }),
        choices,
        lent,
    };
    (single, digits.all)
}

/// The pins whose bits this number has.
fn pins(n: usize, number: usize) -> Vec<u8> {
    (0..n).map(|site| (number >> site & 1) as u8).collect()
}

/// All cases of each shape of up to three sites and four members that has at most `most` of them, without pins, and with every choice of
/// pins where there are no more than twice that. A seed that does not act is among them.
pub fn each(mode: Mode, form: Form, most: usize, mut visit: impl FnMut(Single)) {
    let members = mode.most_members(form).min(4);
    for n in 1..=3 {
        for members in 2..=members {
            let (_, all) = case(mode, form, n, members, 0);
            let patterns = if all << n <= 2 * most { 1 << n } else { 1 };
            for number in (0..all).filter(|_| all <= most) {
                let unpinned = case(mode, form, n, members, number).0;
                for pattern in 0..patterns {
                    let mut case = unpinned.clone();
                    case.panel.pins = pins(n, pattern);
                    visit(case);
                }
            }
        }
    }
}
