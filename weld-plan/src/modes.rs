//! Which of the library's moves a sweep makes: "pair", or more of them with commas between, each as MODE, MODE:FORM or
//! MODE:FORM:MEMBERS.
use crate::fault::Fault;
use tsorvenk::{Form, Mode};

/// One of the moves of every sweep.
#[derive(Clone, Copy, Debug, PartialEq, Eq)]
pub struct Use {
    pub mode: Mode,
    pub form: Form,
    /// Systems in a group.
    pub members: usize,
}

impl std::fmt::Display for Use {
    fn fmt(&self, f: &mut std::fmt::Formatter<'_>) -> std::fmt::Result {
        write!(f, "{}:{}:{}", self.mode.name(), self.form.name().to_lowercase(), self.members)
    }
}

fn one(text: &str) -> Result<Use, String> {
    let mut words = text.split(':');
    let name = words.next().unwrap_or_default();
    let mode = Mode::ALL.into_iter().find(|mode| mode.name() == name);
    let mode = mode.ok_or(format!("{name:?} is none of houd, pair, perm, gperm, jorg and cmr"))?;
    let form = match words.next() {
        None | Some("sw") => Form::Sw,
        Some("wolff") => Form::Wolff,
        Some("grow") => Form::Grow,
        Some(other) => return Err(format!("{other:?} is none of sw (all clusters), wolff (one, labelled) and grow (one, grown)")),
    };
    let members = words.next().map_or(Ok(2), |word| word.parse().map_err(|_| format!("{word:?} is no number of systems")))?;
    let two_alone = matches!(mode, Mode::Houd | Mode::Cmr);
    match members {
        _ if words.next().is_some() => Err(format!("{text:?} has more than a mode, a form and a number")),
        2..=8 if members == 2 || !two_alone => Ok(Use { mode, form, members }),
        2..=8 => Err(format!("{name} moves groups of two alone")),
        _ => Err(format!("a group has 2 to 8 systems, and not {members}")),
    }
}

/// The moves of a sweep, none of them for "none".
pub fn parse(text: &str, replicas: usize) -> Result<Vec<Use>, Fault> {
    let fault = |why: String| Fault::input(format!("--modes {text}: {why}"));
    if text == "none" {
        return Ok(Vec::new());
    }
    let uses: Vec<Use> = text.split(',').map(one).collect::<Result<_, _>>().map_err(fault)?;
    match uses.iter().find(|one| one.members > replicas) {
        Some(one) => {
            Err(fault(format!("groups of {} need as many replicas at a temperature, and --replicas says {replicas}", one.members)))
        }
        None => Ok(uses),
    }
}

/// All moves in one word, as `parse` takes it.
pub fn spell(uses: &[Use]) -> String {
    let words: Vec<String> = uses.iter().map(Use::to_string).collect();
    if words.is_empty() {
        "none".into()
    } else {
        words.join(",")
    }
}
