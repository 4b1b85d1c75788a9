//! A day from its flags to its files.
use crate::checkpoint::{self, Beside};
use crate::config::{Config, Term};
use crate::day::Day;
use crate::fault::Fault;
use crate::files;
use crate::flags::{Flags, HELP};
use crate::out::{self, millimetres};
use crate::panel::Panel;
use crate::progress::Progress;
use crate::signal;
use crate::state::State;
use std::ffi::OsString;
use std::io::Write;
use std::time::{Duration, Instant};

/// How the day's sweeps came to an end.
enum End {
    Done,
    Stopped(u8),
}

/// The clock of a day that may have been broken.
struct Clock {
    before: Duration,
    began: Instant,
}

impl Clock {
    fn took(&self) -> Duration {
        self.before + self.began.elapsed()
    }
}

fn begin(panel: &Panel, config: &Config, term: &Term) -> Result<(State, Duration), Fault> {
    if term.resume {
        let (state, beside) = checkpoint::read(&term.out, panel, config)?;
        return match term.sweeps {
            Some(sweeps) if sweeps < state.sweep => Err(Fault::input(format!(
                "--sweeps {sweeps}: the checkpoint in {} is at sweep {} already",
                term.out.display(),
                state.sweep
            ))),
            _ => Ok((state, beside.took)),
        };
    }
    if checkpoint::unfinished(&term.out) {
        let out = term.out.display();
        let what = format!("{out} has the checkpoint of a day that was broken off");
        return Err(Fault::input(format!("{what}: go on with --resume, or name another --out, or delete {out}/{}", checkpoint::NAME)));
    }
    Ok((State::new(panel, config)?, Duration::ZERO))
}

/// A checkpoint of now.
fn save(day: &Day, term: &Term, took: Duration, ended: bool) -> Result<(), Fault> {
    checkpoint::write(&term.out, &day.panel, &day.config, &day.state, &Beside { took, ended })
}

/// The folder and a first checkpoint in it: a disk that cannot be written is told in the morning, and not at five.
fn begin_on_disk(day: &Day, term: &Term, before: Duration) -> Result<(), Fault> {
    let new = !term.out.exists();
    files::make_folder(&term.out)?;
    save(day, term, before, false).inspect_err(|_| {
        // a folder with something in it is not removed
        if new {
            let _ = std::fs::remove_dir(&term.out);
        }
    })
}

/// Sweeps until the day's end or a signal, with a checkpoint and a line of progress now and then. Neither changes a sweep.
fn sweeps(day: &mut Day, term: &Term, clock: &Clock, progress: &mut Progress) -> Result<End, Fault> {
    let mut saved = Instant::now();
    loop {
        if let Some(number) = signal::came() {
            return Ok(End::Stopped(number));
        }
        let enough = term.sweeps.is_some_and(|sweeps| day.state.sweep >= sweeps);
        if enough || term.minutes.is_some_and(|minutes| clock.took() >= minutes) {
            return Ok(End::Done);
        }
        let best = day.state.best.total;
        day.sweep()?;
        if day.state.best.total < best {
            progress.found(clock.took());
        }
        if progress.due() {
            day.held_to_the_meter()?;
            progress.show(day, term, clock.took());
        }
        if saved.elapsed() >= term.checkpoint {
            day.held_to_the_meter()?;
            save(day, term, clock.took(), false)?;
            saved = Instant::now();
        }
    }
}

/// What was reached, in a line for the person at the terminal.
fn said(day: &Day, term: &Term, progress: &Progress, took: Duration) -> String {
    let best = &day.state.best;
    let total = millimetres(best.total);
    let seconds = took.as_secs_f64();
    let since = progress.since().map_or(String::new(), |since| format!(", after {:.2} s", since.as_secs_f64()));
    let out = term.out.display();
    format!("{} sweeps in {seconds:.1} s; best {total} mm at sweep {}{since}; written to {out}", day.state.sweep, best.sweep)
}

/// What is printed for flags that ask for no day, if these do.
fn asked(flags: &Flags) -> Option<String> {
    match (flags.help, flags.version) {
        (true, _) => Some(HELP.into()),
        (_, true) => Some(format!("weld-plan {}\n", env!("CARGO_PKG_VERSION"))),
        _ => None,
    }
}

/// The exit status of these arguments, or why there is no plan.
pub fn run(arguments: &[OsString]) -> Result<u8, Fault> {
    let flags = Flags::parse(arguments)?;
    if let Some(text) = asked(&flags) {
        // whoever does not read it to its end does not want it
        let _ = std::io::stdout().write_all(text.as_bytes());
        return Ok(0);
    }
    let term = Term::of(&flags)?;
    let (panel, config) = Config::of(&flags)?;
    let (state, before) = begin(&panel, &config, &term)?;
    let mut day = Day::new(panel, config, state);
    day.held_to_the_meter()?;
    signal::listen();
    begin_on_disk(&day, &term, before)?;
    let clock = Clock { before, began: Instant::now() };
    let mut progress = Progress::new(term.quiet, &day);
    let end = sweeps(&mut day, &term, &clock, &mut progress)?;
    day.held_to_the_meter()?;
    let took = clock.took();
    if !term.quiet {
        progress.show(&day, &term, took);
    }
    // only a day whose plan is written has ended: until then another must not be begun over it
    save(&day, &term, took, false)?;
    out::write(&term.out, &day)?;
    if matches!(end, End::Done) {
        save(&day, &term, took, true)?;
    }
    let reached = said(&day, &term, &progress, took);
    progress.say(&reached);
    match end {
        End::Done => Ok(0),
        End::Stopped(number) => {
            progress.say("stopped: --resume goes on from here");
            Ok(128 + number)
        }
    }
}
