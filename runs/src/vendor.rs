//! A vendor's spins before and after a move of one group (13/14), and how each side checks them.
use crate::case::{Choices, Lent, Panel, Single};
use crate::make::{UNTOUCHED, UNTOUCHED_BYTE};
use crate::model::{self, lengths, Model, NO};
use crate::packed::rows_of;
use crate::raw;
use calls::{CheckVendor, Coding, Form, Keeps, Mode, Port, VendorAnswer};

pub mod make;

/// A pair, and what else its check is lent. The mode is what C lends for one.
#[derive(Clone, Debug)]
pub struct Vendored {
    pub mode: u8,
    pub n: usize,
    pub d: usize,
    pub members: usize,
    pub reference: usize,
    pub fwd: Vec<u32>,
    pub bwd: Vec<u32>,
    pub pins: Vec<u8>,
    pub before: Vec<i8>,
    pub after: Vec<i8>,
    pub rows: Vec<u8>,
    pub fault: Vec<u32>,
}

/// The number that comes back, and what was lent to be written.
#[derive(Clone, Debug, PartialEq, Eq)]
pub struct Checked {
    pub number: u8,
    pub rows: Vec<u8>,
    pub fault: Vec<u32>,
}

impl Vendored {
    /// The group's rows before this move and after it, which left these spins.
    pub fn of(case: &Single, after: &Lent) -> Vendored {
        let (panel, members) = (&case.panel, case.group.len());
        Vendored {
            mode: panel.mode as u8,
            n: panel.n,
            d: panel.d,
            members,
            reference: case.reference,
            fwd: panel.fwd.clone(),
            bwd: panel.bwd.clone(),
            pins: panel.pins.clone(),
            before: rows_of(&case.group, &case.lent.spins, panel.n),
            after: rows_of(&case.group, &after.spins, panel.n),
            rows: vec![UNTOUCHED_BYTE; panel.n * members],
            fault: vec![UNTOUCHED],
        }
    }

    /// The mode of its number, if there is one.
    fn named(&self) -> Option<Mode> {
        Mode::ALL.get(usize::from(self.mode)).copied()
    }

    pub fn call<'a>(&'a self, rows: &'a mut [u8]) -> CheckVendor<'a> {
        CheckVendor {
            mode: self.named().unwrap_or(Mode::Houd),
            n: self.n,
            d: self.d,
            members: self.members,
            reference: self.reference,
            fwd: &self.fwd,
            bwd: &self.bwd,
            pins: &self.pins,
            before: &self.before,
            after: &self.after,
            rows,
        }
    }

    /// What comes back with this number where nothing is written.
    pub fn unwritten(&self, number: u8) -> Checked {
        Checked {
            number,
            rows: self.rows.clone(),
            fault: self.fault.clone(),
        }
    }

    pub fn by_model(&self) -> Checked {
        let mut checked = self.unwritten(0);
        let call = self.call(&mut checked.rows);
        checked.number = model::check_vendor(self.mode, call, &mut checked.fault);
        checked
    }

    /// The port's answer as C gets it, if it is linked.
    pub fn as_c(&self) -> Option<Checked> {
        let mut checked = self.unwritten(0);
        let call = self.call(&mut checked.rows);
        checked.number = raw::check_vendor(self.mode, call, &mut checked.fault)?;
        Some(checked)
    }

    /// A side's answer where the mode has a name and the fault, which the side lends itself, one place.
    pub fn by_side(&self, side: &mut dyn Port) -> Option<Checked> {
        if self.named().is_none() || self.fault.len() != 1 {
            return None;
        }
        let mut checked = self.unwritten(0);
        match side.check_vendor(self.call(&mut checked.rows)) {
            VendorAnswer::Accepted => {}
            VendorAnswer::No(component) => (checked.number, checked.fault) = (NO, vec![component]),
            VendorAnswer::Refused(number) => checked.number = number,
        }
        Some(checked)
    }

    /// The spins before in a panel of the group alone, in perm or gperm; in SW these rows are the choices.
    fn single(&self, form: Form, perms: &[u8]) -> Single {
        let mode = self.named().expect("a mode");
        let exact = lengths(mode, form, self.n, self.d, self.members, 1);
        Single {
            panel: Panel {
                mode,
                form,
                coding: Coding::Rows,
                keeps: Keeps::Nothing,
                n: self.n,
                d: self.d,
                s: self.members,
                team: 0,
                owners: vec![0; self.members],
                fwd: self.fwd.clone(),
                bwd: self.bwd.clone(),
                pins: self.pins.clone(),
                couplings: Vec::new(),
            },
            group: (0..self.members as u32).collect(),
            temperature: 1.0,
            reference: self.reference,
            seed: 0,
            choices: Choices {
                perms: perms.to_vec(),
                ..Choices::default()
            },
            lent: Lent::filled(exact, self.before.clone(), UNTOUCHED, UNTOUCHED_BYTE),
        }
    }

    /// The observation of the spins before, whose numbers the check has.
    pub fn observation(&self) -> Single {
        self.single(Form::Observe, &[])
    }

    /// The spins that an SW move with these choices makes of those before.
    pub fn played(&self, side: &mut dyn Port, rows: &[u8]) -> Vec<i8> {
        self.single(Form::Sw, rows).run(side).1.spins
    }

    /// The number of each site's component before, and whether the site acts, as a move has them.
    pub fn components(&self) -> (Vec<u32>, Vec<bool>) {
        let seen = self.observation();
        let acting = model::active(&seen.step(&mut seen.lent.clone()));
        (seen.run(&mut Model).1.labels, acting)
    }
}
