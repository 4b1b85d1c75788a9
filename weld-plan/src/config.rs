//! What a day is: what its bytes depend on, and how long it lasts.
use crate::fault::Fault;
use crate::flags::Flags;
use crate::grid::Grid;
use crate::modes::{self, Use};
use crate::panel::Panel;
use crate::pins;
use crate::temperatures;
use std::path::PathBuf;
use std::time::Duration;

/// What the bytes of a day depend on, beside the panel.
pub struct Config {
    pub seed: [u64; 4],
    /// Rising, as the library takes them.
    pub temperatures: Vec<f32>,
    pub replicas: usize,
    pub modes: Vec<Use>,
}

/// When a day ends, where it is written and what is shown: none of it changes a sweep.
pub struct Term {
    pub sweeps: Option<u64>,
    pub minutes: Option<Duration>,
    pub out: PathBuf,
    pub checkpoint: Duration,
    pub resume: bool,
    pub quiet: bool,
}

/// Sweeps of a day for which nothing else is said.
const SWEEPS: u64 = 2000;

fn word(text: &str) -> Option<u64> {
    match text.strip_prefix("0x") {
        Some(digits) => u64::from_str_radix(digits, 16).ok(),
        None => text.parse().ok(),
    }
}

fn seed(text: &str) -> Result<[u64; 4], Fault> {
    let words: Option<Vec<u64>> = text.split(',').map(|text| word(text.trim())).collect();
    match words.and_then(|words| <[u64; 4]>::try_from(words).ok()) {
        Some([0, 0, 0, 0]) => Err(Fault::input(format!("--seed {text}: not all four words may be 0"))),
        Some(words) => Ok(words),
        None => Err(Fault::input(format!("--seed {text}: a seed is four whole numbers below 2^64 with commas between, like 1,2,3,4"))),
    }
}

fn seconds(name: &str, text: &str, unit: f64) -> Result<Duration, Fault> {
    let number = text.parse().ok().filter(|number: &f64| (0.0..=1e6).contains(number));
    let number = number.ok_or_else(|| Fault::input(format!("{name} {text}: this is no number from 0 to 1000000")))?;
    Ok(Duration::from_secs_f64(number * unit))
}

impl Config {
    /// How many systems there are.
    pub fn systems(&self) -> usize {
        self.temperatures.len() * self.replicas
    }

    /// The panel of these flags, and its day.
    pub fn of(flags: &Flags) -> Result<(Panel, Config), Fault> {
        let needed = |name: &str| Fault::input(format!("{name} is missing; --help has all flags"));
        let grid = Grid::parse(flags.grid.as_ref().ok_or_else(|| needed("--grid"))?)?;
        let list = flags.list.as_ref().ok_or_else(|| needed("--list"))?;
        let seed = seed(flags.seed.as_deref().unwrap_or("1,2,3,4"))?;
        let text = flags.replicas.as_deref().unwrap_or("4");
        let replicas: usize = text
            .parse()
            .ok()
            .filter(|replicas| (1..=64).contains(replicas))
            .ok_or_else(|| Fault::input(format!("--replicas {text}: this is no number from 1 to 64")))?;
        let modes = modes::parse(flags.modes.as_deref().unwrap_or("pair,cmr"), replicas)?;
        let mut panel = Panel::read(list, grid)?;
        if let Some(path) = &flags.pins {
            pins::read(&mut panel, path)?;
        }
        let temperatures = temperatures::parse(flags.temperatures.as_deref().unwrap_or("16"), &panel.couplings)?;
        let config = Config { seed, temperatures, replicas, modes };
        match config.systems() {
            ..=64 => Ok((panel, config)),
            systems => Err(Fault::input(format!(
                "{} temperatures of {replicas} replicas are {systems} systems, and there may be 64",
                config.temperatures.len()
            ))),
        }
    }

    /// Everything that a day's bytes depend on, as names and values. A checkpoint has them, so that a day goes on as it began.
    pub fn lines(&self, panel: &Panel) -> Vec<(&'static str, String)> {
        let list = |words: Vec<String>| words.join(",");
        let pinned = (0..panel.n).filter(|&site| panel.pins[site] == 1);
        let pins = list(pinned.map(|site| format!("{}{}", site + 1, pins::letter(panel.faces[site]))).collect());
        vec![
            ("grid", panel.grid.to_string()),
            ("list", panel.checksum.clone()),
            ("pins", if pins.is_empty() { "none".into() } else { pins }),
            ("seed", list(self.seed.iter().map(u64::to_string).collect())),
            ("temperatures", list(self.temperatures.iter().map(f32::to_string).collect())),
            ("replicas", self.replicas.to_string()),
            ("modes", modes::spell(&self.modes)),
        ]
    }
}

impl Term {
    /// What these flags say.
    pub fn of(flags: &Flags) -> Result<Term, Fault> {
        let minutes = flags.minutes.as_ref().map(|text| seconds("--minutes", text, 60.0)).transpose()?;
        let sweeps = match &flags.sweeps {
            Some(text) => {
                let fault = || Fault::input(format!("--sweeps {text}: this is no whole number up to 1000000000"));
                Some(text.parse().ok().filter(|&sweeps| sweeps <= 1_000_000_000u64).ok_or_else(fault)?)
            }
            None if minutes.is_none() => Some(SWEEPS),
            None => None,
        };
        let checkpoint = seconds("--checkpoint", flags.checkpoint.as_deref().unwrap_or("10"), 1.0)?;
        let out = flags.out.clone().unwrap_or_else(|| "plan".into());
        Ok(Term { sweeps, minutes, out, checkpoint, resume: flags.resume, quiet: flags.quiet })
    }
}
