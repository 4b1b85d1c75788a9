//! Why the program stops: one sentence and an exit status.
use tsorvenk::Refusal;

/// What is told to the person at the terminal.
#[derive(Clone, Debug, PartialEq, Eq)]
pub struct Fault {
    pub sentence: String,
    /// 2 for what a person can mend, 3 for what only this program's authors can.
    pub status: u8,
}

impl Fault {
    /// Something in the flags, the files or the disk.
    pub fn input(sentence: impl Into<String>) -> Fault {
        Fault { sentence: sentence.into(), status: 2 }
    }

    /// Something that no input should bring about.
    pub fn internal(sentence: impl Into<String>) -> Fault {
        Fault { sentence: format!("an error of the program itself: {}", sentence.into()), status: 3 }
    }
}

/// Input is tested before the library sees it, so that a refusal inside a day is an error of this program.
impl From<Refusal> for Fault {
    fn from(refusal: Refusal) -> Fault {
        Fault::internal(format!("a call of the library was {refusal}"))
    }
}
