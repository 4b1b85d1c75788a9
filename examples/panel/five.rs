//! The part of the example panel that moves a group of five, and checks the move as a vendor's.
use crate::{sign, Outputs, Panel, D, N};
use tsorvenk::{check_vendor, number_of, row_of, CheckVendor, Checked, Coding, Mode, Refusal, Source, Step};

const FIVE: usize = 5;

/// The move of five, taken for a vendor's: as it is, and with the last spin of the last system turned.
fn check_five(panel: &Panel, before: &[i8], after: &mut [i8]) -> Result<(), Refusal> {
    let mut rows = [0; FIVE * N];
    let mut check = |after: &[i8]| {
        check_vendor(CheckVendor {
            mode: Mode::Perm,
            n: N,
            d: D,
            members: FIVE,
            fwd: &panel.fwd,
            bwd: &panel.bwd,
            before,
            after,
            rows: &mut rows,
            ..Default::default()
        })
    };
    let whole = check(after)?;
    after[FIVE * N - 1] = -after[FIVE * N - 1];
    let turned = check(after)?;
    let told = |checked| if checked == Checked::Accepted { "accepted" } else { "not accepted" };
    let [a, b, c, d, e, ..] = rows;
    println!("  checked as a vendor's: {}, by {a} {b} {c} {d} {e} first", told(whole));
    let Checked::Fault(fault) = turned else { panic!("accepted") };
    println!("  with one spin turned: {}, for component {fault}", told(turned));
    Ok(())
}

/// Five systems are moved by numbers, a byte for each choice, and once more by the rows of these, five bytes each.
pub fn move_five(panel: &Panel, source: &mut Source, o: &mut Outputs) -> Result<(), Refusal> {
    let (mut coins, mut numbers, mut rows) = ([0; FIVE * N], [0; N], [0; FIVE * N]);
    source.fill_flips(&mut coins)?;
    source.fill_numbers(&mut numbers)?;
    for (row, &number) in rows.chunks_mut(FIVE).zip(&numbers) {
        row.copy_from_slice(&row_of(number)?);
    }
    let mut permute = |coding: Coding, perms: &[u8]| -> Result<[i8; FIVE * N], Refusal> {
        let mut spins = coins.map(sign);
        tsorvenk::step(Step {
            mode: Mode::Perm,
            coding,
            n: N,
            d: D,
            s: FIVE,
            spins: &mut spins,
            fwd: &panel.fwd,
            bwd: &panel.bwd,
            group: &[0, 1, 2, 3, 4],
            perms,
            labels: &mut o.labels[..N],
            counts: &mut o.counts[..N + 1],
            sizes: &mut o.sizes[..4],
            found: &mut o.found[..1],
            ..Default::default()
        })?;
        Ok(spins)
    };
    let mut moved = permute(Coding::Numbers, &numbers)?;
    let same = moved == permute(Coding::Rows, &rows)?;
    let which = if same { "the same" } else { "other" };
    println!("five by {N} numbers, and by their rows: {which} spins");
    let [a, b, c, d, e] = row_of(numbers[0])?;
    let number = number_of(&rows[..FIVE])?;
    println!("  the first row is {a} {b} {c} {d} {e}, and its number {number}");
    check_five(panel, &coins.map(sign), &mut moved)
}
