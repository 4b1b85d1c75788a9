//! The line that is shown while a day runs.
use crate::config::Term;
use crate::day::Day;
use crate::out::millimetres;
use crate::state::{Rate, Tally};
use std::io::{IsTerminal, Write};
use std::time::{Duration, Instant};

/// Shows a line now and then: on a terminal in one place, elsewhere one below the other and seldom.
pub struct Progress {
    quiet: bool,
    terminal: bool,
    last: Option<Instant>,
    /// Whether the cursor stands behind a line that is shown in one place.
    behind: bool,
    /// What was counted when the last line was shown: rates and sizes are those since then.
    exchanges: Rate,
    tallies: Vec<Tally>,
    /// When the best plan was found, by the day's clock, if it was in this part of the day.
    found: Option<Duration>,
}

fn clock(time: Duration) -> String {
    let seconds = time.as_secs();
    match seconds / 3600 {
        0 => format!("{}:{:02}", seconds / 60, seconds % 60),
        hours => format!("{hours}:{:02}:{:02}", seconds / 60 % 60, seconds % 60),
    }
}

/// How much of the day is done, from 0 to 1, and how long the rest will take: the end that comes first counts.
fn ahead(term: &Term, sweep: u64, took: Duration) -> (f64, Option<Duration>) {
    let by_sweeps = term.sweeps.map(|sweeps| if sweeps == 0 { 1.0 } else { sweep as f64 / sweeps as f64 });
    let by_clock = term.minutes.map(|minutes| if minutes.is_zero() { 1.0 } else { took.as_secs_f64() / minutes.as_secs_f64() });
    let part = by_sweeps.unwrap_or(0.0).max(by_clock.unwrap_or(0.0)).min(1.0);
    let left = (part > 0.0).then(|| Duration::from_secs_f64(took.as_secs_f64() * (1.0 - part) / part));
    (part, left)
}

fn all(rates: &[Rate]) -> Rate {
    rates.iter().fold(Rate::default(), |sum, rate| Rate { tried: sum.tried + rate.tried, done: sum.done + rate.done })
}

impl Progress {
    pub fn new(quiet: bool, day: &Day) -> Progress {
        let terminal = std::io::stderr().is_terminal();
        Progress {
            quiet,
            terminal,
            last: None,
            behind: false,
            exchanges: all(&day.state.exchanges),
            tallies: day.state.tallies.clone(),
            found: None,
        }
    }

    /// A better plan was found.
    pub fn found(&mut self, took: Duration) {
        self.found = Some(took);
    }

    /// When the last of them was found.
    pub fn since(&self) -> Option<Duration> {
        self.found
    }

    /// Whether it is time for a line.
    pub fn due(&self) -> bool {
        let pause = if self.terminal { Duration::from_millis(500) } else { Duration::from_secs(10) };
        !self.quiet && self.last.is_none_or(|last| last.elapsed() >= pause)
    }

    fn sizes(&self, day: &Day) -> String {
        let since = |(which, (now, then)): (usize, (&Tally, &Tally))| {
            let (clusters, sites) = (now.clusters - then.clusters, now.sites - then.sites);
            let mean = if clusters == 0 { 0.0 } else { sites as f64 / clusters as f64 };
            format!("  {} clusters {mean:.1}, largest {}", day.config.modes[which].mode.name(), now.largest)
        };
        day.state.tallies.iter().zip(&self.tallies).enumerate().map(since).collect()
    }

    fn line(&self, day: &Day, term: &Term, took: Duration) -> String {
        let state = &day.state;
        let (part, left) = ahead(term, state.sweep, took);
        let of = term.sweeps.map_or(String::new(), |sweeps| format!(" of {sweeps}"));
        let left = left.map_or(String::new(), |left| format!("  {} left", clock(left)));
        let now = all(&state.exchanges);
        let exchanges = Rate { tried: now.tried - self.exchanges.tried, done: now.done - self.exchanges.done };
        format!(
            "sweep {}{of}  {:.0} %{left}  best {} mm (sweep {})  exchanges {:.0} %{}",
            state.sweep,
            100.0 * part,
            millimetres(state.best.total),
            state.best.sweep,
            100.0 * exchanges.part(),
            self.sizes(day)
        )
    }

    /// Shows the line. A terminal that is gone is no reason to stop a day.
    pub fn show(&mut self, day: &Day, term: &Term, took: Duration) {
        let line = self.line(day, term, took);
        let mut stderr = std::io::stderr();
        // without wrapping, so that a narrow terminal shows the line's front and not a heap of them
        let _ = if self.terminal { write!(stderr, "\r\x1b[2K\x1b[?7l{line}\x1b[?7h") } else { writeln!(stderr, "{line}") };
        self.behind = self.terminal;
        let _ = stderr.flush();
        (self.last, self.exchanges, self.tallies) = (Some(Instant::now()), all(&day.state.exchanges), day.state.tallies.clone());
    }

    /// Says one thing on a line of its own.
    pub fn say(&mut self, sentence: &str) {
        if !self.quiet {
            let start = if std::mem::take(&mut self.behind) { "\n" } else { "" };
            let _ = writeln!(std::io::stderr(), "{start}{sentence}");
        }
    }
}
