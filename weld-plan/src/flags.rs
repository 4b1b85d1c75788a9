//! The command line.
use crate::fault::Fault;
use std::ffi::OsString;
use std::path::PathBuf;

/// What `--help` prints.
pub const HELP: &str = "\
weld-plan: from a yard's list of couplings to a weld plan

    weld-plan --grid 32x32 --list panel.txt [--seed 1,2,3,4] [--out plan] ...

What the plan depends on
  --grid WxH           the panel: W seams in each of H rows, at most 4096 in all
  --list FILE          the yard's list (docs/EDGES.md): \"n m\", then \"i j J\" for pairs of neighbours, J in hundredths of a millimetre
  --pins FILE          seams that are welded already, a line \"SEAM FACE\" each, the face A or B
  --seed A,B,C,D       the four words that every draw comes from, not all 0       [1,2,3,4]
  --temperatures T     a count, made for the list: 16; a list: 2,3.5,6; a ladder LOW:HIGH:COUNT: 2:40:16; in the list's unit   [16]
  --replicas R         replicas at each temperature; temperatures times replicas is at most 64                                  [4]
  --modes M            the library's moves in every sweep, with commas between: houd, pair, perm, gperm, jorg, cmr, each as MODE or
                       MODE:FORM or MODE:FORM:MEMBERS with the forms sw (all clusters), wolff (one, labelled) and grow (one, grown)
                       and 2 to 8 systems in a group; or none                     [pair,cmr]

How long
  --sweeps N           ends after N sweeps                                        [2000, unless --minutes is given]
  --minutes X          ends after X minutes, all parts of the day together

How it is kept
  --out FOLDER         where plan.txt, plan.svg, day.svg, day.json and checkpoint are written      [plan]
  --checkpoint X       seconds from one checkpoint to the next, 0 for one after every sweep        [10]
  --resume             goes on from the folder's checkpoint, to the same bytes as if there had been no break
  --quiet              no progress
  --help, --version

Exit status: 0 the plan is written; 2 something is wrong with the flags, a file or the disk; 128 and the signal's number (Ctrl-C: 130) if
it was stopped, with a checkpoint and the plan so far; 3 an error of the program itself.
";

/// Words as they were given; what they mean is worked out where it is known.
#[derive(Clone, Debug, Default, PartialEq)]
pub struct Flags {
    pub grid: Option<String>,
    pub list: Option<PathBuf>,
    pub pins: Option<PathBuf>,
    pub seed: Option<String>,
    pub temperatures: Option<String>,
    pub replicas: Option<String>,
    pub modes: Option<String>,
    pub sweeps: Option<String>,
    pub minutes: Option<String>,
    pub out: Option<PathBuf>,
    pub checkpoint: Option<String>,
    pub resume: bool,
    pub quiet: bool,
    pub help: bool,
    pub version: bool,
}

fn twice<T>(name: &str, place: &mut Option<T>, value: T) -> Result<(), Fault> {
    match place.replace(value) {
        Some(_) => Err(Fault::input(format!("{name} is given twice"))),
        None => Ok(()),
    }
}

impl Flags {
    /// A flag that stands alone.
    fn alone(&mut self, name: &str) -> bool {
        let place = match name {
            "--resume" => &mut self.resume,
            "--quiet" | "-q" => &mut self.quiet,
            "--help" | "-h" => &mut self.help,
            "--version" => &mut self.version,
            _ => return false,
        };
        *place = true;
        true
    }

    /// A flag with a value.
    fn valued(&mut self, name: &str, value: OsString) -> Result<(), Fault> {
        match name {
            "--list" => return twice(name, &mut self.list, value.into()),
            "--pins" => return twice(name, &mut self.pins, value.into()),
            "--out" => return twice(name, &mut self.out, value.into()),
            _ => {}
        }
        let value = value.into_string().map_err(|_| Fault::input(format!("what follows {name} is no text")))?;
        let place = match name {
            "--grid" => &mut self.grid,
            "--seed" => &mut self.seed,
            "--temperatures" => &mut self.temperatures,
            "--replicas" => &mut self.replicas,
            "--modes" => &mut self.modes,
            "--sweeps" => &mut self.sweeps,
            "--minutes" => &mut self.minutes,
            "--checkpoint" => &mut self.checkpoint,
            _ => return Err(unknown(name)),
        };
        twice(name, place, value)
    }

    /// The arguments behind the program's name, as "--flag value" or "--flag=value".
    pub fn parse(arguments: &[OsString]) -> Result<Flags, Fault> {
        let mut flags = Flags::default();
        let mut rest = arguments.iter();
        while let Some(argument) = rest.next() {
            let word = argument.to_string_lossy().into_owned();
            if flags.alone(&word) {
                continue;
            }
            if !word.starts_with("--") {
                return Err(Fault::input(format!("{word:?} is no flag; --help has all of them")));
            }
            if let Some((name, value)) = word.split_once('=') {
                flags.valued(name, value.into())?;
                continue;
            }
            if !VALUED.contains(&word.as_str()) {
                return Err(unknown(&word));
            }
            let value = rest.next().ok_or_else(|| Fault::input(format!("{word} needs a value behind it")))?;
            flags.valued(&word, value.clone())?;
        }
        Ok(flags)
    }
}

const VALUED: [&str; 11] =
    ["--grid", "--list", "--pins", "--seed", "--temperatures", "--replicas", "--modes", "--sweeps", "--minutes", "--out", "--checkpoint"];

fn unknown(name: &str) -> Fault {
    Fault::input(format!("there is no flag {name}; --help has all of them"))
}
