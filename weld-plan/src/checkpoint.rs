//! A day on disk, so that a lost machine loses nothing: lines of text, the last of which is the SHA-256 of all others.
use crate::config::Config;
use crate::fault::Fault;
use crate::files;
use crate::panel::Panel;
use crate::series::{Point, Series, MOST};
use crate::state::{Best, Rate, State, Tally};
use std::fmt::Write;
use std::path::Path;
use std::str::FromStr;
use std::time::Duration;
use tsorvenk::Source;

/// The file's name in the day's folder.
pub const NAME: &str = "checkpoint";

const TITLE: &str = "weld-plan checkpoint 1";

/// 64 rows of 4096 seams and 400 points of 64 numbers take less.
const ROOM: usize = 4 << 20;

/// What a checkpoint has beside the state.
pub struct Beside {
    /// What the day took so far, for `--minutes` and the time left. No sweep knows it.
    pub took: Duration,
    /// Whether the day came to its end.
    pub ended: bool,
}

fn join<T: ToString>(numbers: impl IntoIterator<Item = T>) -> String {
    numbers.into_iter().map(|number| number.to_string()).collect::<Vec<_>>().join(" ")
}

fn signs(spins: &[i8]) -> String {
    spins.iter().map(|&spin| if spin > 0 { '+' } else { '-' }).collect()
}

fn rates(rates: &[Rate]) -> String {
    join(rates.iter().flat_map(|rate| [rate.tried, rate.done]))
}

/// The text of a checkpoint.
pub fn spell(panel: &Panel, config: &Config, state: &State, beside: &Beside) -> String {
    let mut text = format!("{TITLE}\n");
    let mut line = |name: &str, value: String| {
        // writing to a string does not fail
        let _ = writeln!(text, "{name} {value}");
    };
    for (name, value) in config.lines(panel) {
        line(name, value);
    }
    line("took", beside.took.as_millis().to_string());
    line("ended", u8::from(beside.ended).to_string());
    line("source", join(state.source.words()));
    line("sweep", state.sweep.to_string());
    line("order", join(&state.order));
    line("totals", join(&state.totals));
    for row in state.spins.chunks(panel.n) {
        line("spins", signs(row));
    }
    line("best", join([state.best.total, state.best.sweep as i64]));
    line("plan", signs(&state.best.spins));
    line("updates", rates(&state.updates));
    line("exchanges", rates(&state.exchanges));
    for tally in &state.tallies {
        line("tally", join([tally.moved, tally.idle, tally.held, tally.clusters, tally.sites, tally.largest]));
    }
    line("series", join([state.series.stride, state.series.points.len() as u64]));
    for point in &state.series.points {
        line("point", format!("{} {} {}", point.sweep, point.best, join(&point.sums)));
    }
    let digest = crate::sha256::hex(text.as_bytes());
    text + "sha256 " + &digest + "\n"
}

/// The lines of a checkpoint, taken one by one.
struct Lines<'a> {
    lines: std::str::Lines<'a>,
}

impl<'a> Lines<'a> {
    /// The value of the next line, which has this name.
    fn value(&mut self, name: &str) -> Option<&'a str> {
        self.lines.next()?.strip_prefix(name)?.strip_prefix(' ')
    }

    fn numbers<T: FromStr>(&mut self, name: &str, wanted: usize) -> Option<Vec<T>> {
        let numbers: Option<Vec<T>> = self.value(name)?.split_whitespace().map(|word| word.parse().ok()).collect();
        numbers.filter(|numbers| numbers.len() == wanted)
    }

    fn one<T: FromStr>(&mut self, name: &str) -> Option<T> {
        self.numbers(name, 1)?.pop()
    }

    fn signs(&mut self, name: &str, n: usize) -> Option<Vec<i8>> {
        let sign = |sign| match sign {
            '+' => Some(1),
            '-' => Some(-1),
            _ => None,
        };
        let spins: Option<Vec<i8>> = self.value(name)?.chars().map(sign).collect();
        spins.filter(|spins| spins.len() == n)
    }

    fn rates(&mut self, name: &str, wanted: usize) -> Option<Vec<Rate>> {
        let numbers: Vec<u64> = self.numbers(name, 2 * wanted)?;
        Some(numbers.chunks(2).map(|pair| Rate { tried: pair[0], done: pair[1] }).collect())
    }

    fn tally(&mut self) -> Option<Tally> {
        match self.numbers("tally", 6)?[..] {
            [moved, idle, held, clusters, sites, largest] => Some(Tally { moved, idle, held, clusters, sites, largest }),
            _ => None,
        }
    }

    fn series(&mut self, t: usize) -> Option<Series> {
        let sizes: Vec<u64> = self.numbers("series", 2)?;
        let mut points = Vec::new();
        for _ in 0..sizes[1].min(MOST as u64) {
            let numbers: Vec<i64> = self.numbers("point", 2 + t)?;
            points.push(Point { sweep: u64::try_from(numbers[0]).ok()?, best: numbers[1], sums: numbers[2..].to_vec() });
        }
        Some(Series { stride: sizes[0].max(1), points })
    }

    /// All behind the lines that say what the day is.
    fn state(&mut self, panel: &Panel, config: &Config) -> Option<(State, Beside)> {
        let (n, s, t) = (panel.n, config.systems(), config.temperatures.len());
        let took = Duration::from_millis(self.one("took")?);
        let ended = self.one::<u8>("ended")? == 1;
        let words: Vec<u64> = self.numbers("source", 4)?;
        let source = Source::new(words.try_into().ok()?).ok()?;
        let sweep = self.one("sweep")?;
        let order = self.numbers("order", s)?;
        let totals = self.numbers("totals", s)?;
        let rows: Option<Vec<Vec<i8>>> = (0..s).map(|_| self.signs("spins", n)).collect();
        let best: Vec<i64> = self.numbers("best", 2)?;
        let best = Best { total: best[0], sweep: u64::try_from(best[1]).ok()?, spins: self.signs("plan", n)? };
        let updates = self.rates("updates", t)?;
        let exchanges = self.rates("exchanges", t - 1)?;
        let tallies = (0..config.modes.len()).map(|_| self.tally()).collect::<Option<_>>()?;
        let series = self.series(t)?;
        let state = State { source, sweep, spins: rows?.concat(), totals, order, best, updates, exchanges, tallies, series };
        Some((state, Beside { took, ended }))
    }
}

/// A text that is whole: as it was written, to the last byte.
fn whole(bytes: Vec<u8>) -> Option<String> {
    let text = String::from_utf8(bytes).ok()?;
    let (front, digest) = text.strip_suffix('\n')?.rsplit_once("\nsha256 ")?;
    let front = format!("{front}\n");
    (crate::sha256::hex(front.as_bytes()) == digest).then_some(front)
}

fn damaged(path: &Path) -> Fault {
    Fault::input(format!(
        "{} is damaged or no checkpoint of this program; without --resume a new day is begun in an empty folder",
        path.display()
    ))
}

/// The state in a folder's checkpoint, if it is of this very day.
pub fn read(folder: &Path, panel: &Panel, config: &Config) -> Result<(State, Beside), Fault> {
    let path = folder.join(NAME);
    let text = whole(files::read_at_most(&path, ROOM)?).ok_or_else(|| damaged(&path))?;
    let mut lines = Lines { lines: text.lines() };
    if lines.lines.next() != Some(TITLE) {
        return Err(damaged(&path));
    }
    for (name, value) in config.lines(panel) {
        let there = lines.value(name).ok_or_else(|| damaged(&path))?;
        if there != value {
            let what = if name == "list" { "the checksum of the list" } else { name };
            let sentence = format!("{} is of another day: {what} was {there} there, and is {value} here", path.display());
            return Err(Fault::input(sentence));
        }
    }
    let (state, beside) = lines.state(panel, config).ok_or_else(|| damaged(&path))?;
    let mut systems = state.order.clone();
    systems.sort_unstable();
    match systems.into_iter().eq(0..config.systems() as u32) {
        true => Ok((state, beside)),
        false => Err(damaged(&path)),
    }
}

/// Whether a folder has the checkpoint of a day that did not come to its end, which a new day would write over.
pub fn unfinished(folder: &Path) -> bool {
    let text = files::read_at_most(&folder.join(NAME), ROOM).ok().and_then(whole);
    text.is_some_and(|text| text.lines().any(|line| line == "ended 0"))
}

/// Written beside and moved into place.
pub fn write(folder: &Path, panel: &Panel, config: &Config, state: &State, beside: &Beside) -> Result<(), Fault> {
    files::write_all(folder, &[(NAME, spell(panel, config, state, beside).as_bytes())])
}
