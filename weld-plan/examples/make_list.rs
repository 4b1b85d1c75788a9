//! Makes a list of a panel as a yard might send it: for each pair of neighbours a whole number from 1 to LARGEST, in hundredths of a
//! millimetre, with a sign that a coin gives. `cargo run --example make_list 16x16 1,2,3,4 40 > yard.edges`
use weld_plan::grid::Grid;
use weld_plan::sample;

fn main() {
    let arguments: Vec<String> = std::env::args().skip(1).collect();
    let [grid, seed, largest] = &arguments[..] else { panic!("make_list WxH A,B,C,D LARGEST") };
    let grid = Grid::parse(grid).unwrap_or_else(|fault| panic!("{}", fault.sentence));
    let seed: Vec<u64> = seed.split(',').map(|word| word.parse().expect("four words")).collect();
    let list = sample::list(grid, seed.try_into().expect("four words"), largest.parse().expect("a number"));
    print!("{}", list.unwrap_or_else(|refusal| panic!("{refusal}")));
}
