//! Instructions of what keeping totals takes (6/14), beside metering the group's systems anew by a plain loop and by the port.
use crate::one_call;
use calls::{Form, Mode};
use std::hint::black_box;
use tsorvenk_runs::case::Single;
use tsorvenk_runs::port;
use tsorvenk_runs::rand::Rand;
use tsorvenk_runs::timing::pieces::{
    kept, piece, plain_energies, refused_kept, refused_meter, Share,
};
use tsorvenk_runs::timing::refused_single;

/// The mode, form, number of directions, size of the group and share, as numbers.
type Numbers = [usize; 5];

fn case([mode, form, d, members, share]: Numbers) -> Single {
    let form = (Mode::ALL[mode], Form::ALL[form]);
    piece(&mut Rand::new(1), form, d, members, Share::ALL[share])
}

/// What is run so many times: a call, a meter, or the plain loop.
pub fn run(what: &str, numbers: Numbers, times: usize) {
    let case = case(numbers);
    let mut port = port::linked().expect("the port is linked");
    let case = match what {
        "kept" => kept(&case),
        "kept-tests" => refused_kept(&kept(&case)),
        "plain-tests" => refused_single(&case),
        "meter-tests" => refused_meter(&case),
        _ => case,
    };
    let mut lent = case.lent.clone();
    for _ in 0..times {
        match what {
            "loop" => {
                black_box(plain_energies(black_box(&case)));
            }
            "meter" | "meter-tests" => {
                port.energy(case.meter(0));
            }
            _ => {
                lent.spins.copy_from_slice(&case.lent.spins);
                lent.totals.copy_from_slice(&case.lent.totals);
                port.step(case.step(&mut lent));
            }
        }
    }
}

fn line(numbers: Numbers) {
    let [mode, form, d, members, share] = numbers;
    let words = numbers.map(|number| number.to_string());
    let of = |what: &str| {
        let words: Vec<&str> = [what]
            .into_iter()
            .chain(words.iter().map(String::as_str))
            .collect();
        one_call(&words)
    };
    let keeping = of("kept") - of("kept-tests") - (of("plain") - of("plain-tests"));
    let metering = members as f64 * (of("meter") - of("meter-tests"));
    let plain = of("loop");
    println!(
        "{:5} {:4} D = {d} N = {members} {:9} keeping {keeping:9.0} | plain loop {plain:9.0} ({:5.3}) | meter {metering:9.0} ({:5.3})",
        Mode::ALL[mode].name(),
        Form::ALL[form].name(),
        Share::ALL[share].name(),
        keeping / plain,
        keeping / metering,
    );
}

pub fn all() {
    println!("what keeping totals takes, tests aside, S = N");
    for (form, share) in [(Form::Sw, 1), (Form::Sw, 2), (Form::Grow, 0)] {
        for mode in Mode::ALL {
            let sizes: &[usize] = match mode.most_members(form) {
                2 => &[2],
                _ => &[2, 8],
            };
            for &members in sizes {
                line([mode as usize, form as usize, 2, members, share]);
            }
        }
    }
}
