//! A call by rows of five as the same call by numbers (8/14).
use crate::case::{Choices, Single, Swept};
use crate::model::orders;
use calls::{Coding, Form};

/// What is no permutation becomes a number that is none.
fn number(row: &[u8]) -> u8 {
    let any = row.iter().map(|&entry| usize::from(entry)).sum::<usize>();
    let place = orders().iter().position(|order| order == row);
    place.unwrap_or(120 + any % 136) as u8
}

/// A number for each row. Where there are not the `wanted` rows, to the byte, there are not as many numbers either.
pub fn numbers(rows: &[u8], wanted: usize) -> Vec<u8> {
    let length = match rows.len() / 5 {
        _ if Some(rows.len()) == wanted.checked_mul(5) => wanted,
        whole if whole == wanted => whole + 1,
        whole => whole,
    };
    let mut numbers: Vec<u8> = rows.chunks(5).map(number).collect();
    numbers.resize(length, 0);
    numbers
}

/// The choices of a call that takes so many permutations.
fn by_number(choices: &Choices, wanted: usize) -> Choices {
    Choices {
        perms: numbers(&choices.perms, wanted),
        ..choices.clone()
    }
}

/// How many permutations a task takes.
fn each(form: Form, n: usize) -> usize {
    match form {
        Form::Sw => n,
        _ => 1,
    }
}

impl Single {
    /// The same call, its permutations as numbers.
    pub fn by_number(&self) -> Single {
        let mut case = self.clone();
        case.panel.coding = Coding::Numbers;
        case.choices = by_number(&self.choices, each(case.panel.form, case.panel.n));
        case
    }
}

impl Swept {
    /// The same call, its permutations as numbers.
    pub fn by_number(&self) -> Swept {
        let mut case = self.clone();
        case.panel.coding = Coding::Numbers;
        let wanted = self
            .tasks()
            .saturating_mul(each(case.panel.form, case.panel.n));
        case.choices = by_number(&self.choices, wanted);
        case
    }
}
