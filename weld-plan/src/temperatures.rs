//! The temperatures, in the couplings' unit: as a list, as a ladder LOW:HIGH:COUNT of equal ratios, or worked out from the list.
use crate::fault::Fault;

/// What document 01 allows.
const RANGE: std::ops::RangeInclusive<f32> = 0.0009765625..=1048576.0;

/// The coldest and hottest of the ladder that is made where none is given, in parts of the couplings' mean size. On panels of
/// couplings of both signs few single seams turn at the coldest, and at the hottest nearly all do.
const COLDEST: f64 = 0.2;
const HOTTEST: f64 = 1.25;

/// x to a whole power, by multiplications in a fixed order.
fn power(x: f64, times: usize) -> f64 {
    (0..times).fold(1.0, |product, _| product * x)
}

/// From `low` to `high` by equal ratios. The ratio is found by halving an interval, with products alone, so that its bits are the
/// same on every machine.
pub fn ladder(low: f64, high: f64, count: usize) -> Vec<f32> {
    if count == 1 {
        return vec![low as f32];
    }
    let (mut least, mut most) = (1.0, high / low);
    for _ in 0..200 {
        let middle = least + (most - least) / 2.0;
        if low * power(middle, count - 1) < high {
            least = middle
        } else {
            most = middle
        }
    }
    let rung = |k: usize| if k + 1 == count { high as f32 } else { (low * power(least, k)) as f32 };
    (0..count).map(rung).collect()
}

/// The ladder for these couplings, by the mean size of those that are not 0.
pub fn made_for(couplings: &[i32], count: usize) -> Vec<f32> {
    let some = couplings.iter().filter(|&&coupling| coupling != 0);
    let (sum, number) = some.fold((0i64, 0i64), |(sum, number), coupling| (sum + i64::from(coupling.abs()), number + 1));
    let mean = if number == 0 { 1.0 } else { sum as f64 / number as f64 };
    ladder(mean * COLDEST, mean * HOTTEST, count)
}

fn numbers(text: &str, between: char) -> Option<Vec<f64>> {
    text.split(between).map(|word| word.parse().ok().filter(|number: &f64| number.is_finite())).collect()
}

/// What the flag says. Rust reads a decimal as the nearest f64 and rounds it to the nearest f32, on every machine alike.
pub fn parse(text: &str, couplings: &[i32]) -> Result<Vec<f32>, Fault> {
    let fault = |why: &str| Fault::input(format!("--temperatures {text}: {why}"));
    let shape = "temperatures are a count, like 16, a list, like 2,3.5,6, or a ladder LOW:HIGH:COUNT, like 2:40:16";
    let made = if text.contains(':') {
        match numbers(text, ':').as_deref() {
            Some(&[low, high, count]) if (1.0..=64.0).contains(&count) && count == (count as usize) as f64 && 0.0 < low && low <= high => {
                ladder(low, high, count as usize)
            }
            _ => return Err(fault(shape)),
        }
    } else if let Some(count) = text.parse().ok().filter(|count| (1..=64).contains(count)) {
        made_for(couplings, count)
    } else {
        numbers(text, ',').ok_or(fault(shape))?.iter().map(|&number| number as f32).collect()
    };
    if !made.iter().all(|temperature| RANGE.contains(temperature)) {
        return Err(fault("a temperature is from 1/1024 to 1048576"));
    }
    match made.windows(2).all(|pair| pair[0] < pair[1]) {
        true => Ok(made),
        false => Err(fault("temperatures rise from the coldest to the hottest")),
    }
}
