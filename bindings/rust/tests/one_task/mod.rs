//! One task of a ring of three, with a call for each of its steps.
use tsorvenk::*;

/// A ring of three and two members that differ at the first two sites; in gperm, whose reference is the last site, these act too.
const FWD: [u32; 3] = [1, 2, 0];
const BWD: [u32; 3] = [2, 0, 1];
const ROWS: [i8; 6] = [1, 1, 1, -1, -1, 1];

/// One task with all that its steps take. What a mode and form do not take is lent too, and ignored.
#[derive(Clone, Debug, PartialEq)]
pub struct One {
    pub mode: Mode,
    pub form: Form,
    pub keeps: Keeps,
    pub n: usize,
    pub d: usize,
    pub members: usize,
    pub rows: Vec<i8>,
    pub totals: Vec<i64>,
    pub fwd: Vec<u32>,
    pub bwd: Vec<u32>,
    pub pins: Vec<u8>,
    pub couplings: Vec<i32>,
    pub temperature: f32,
    pub cuts: Vec<f32>,
    pub reference: usize,
    pub seed: usize,
    pub flips: Vec<u8>,
    pub perms: Vec<u8>,
    pub greys: Vec<u8>,
    pub labels: Vec<u32>,
    pub grey_labels: Vec<u32>,
    pub counts: Vec<u32>,
    pub sizes: Vec<u32>,
    pub member_sites: Vec<u8>,
    pub found: Vec<u32>,
    pub grey_found: Vec<u32>,
    pub blue: Vec<u8>,
    pub area: Vec<u8>,
}

pub fn one(mode: Mode, form: Form) -> One {
    let entries = if form == Form::Sw { 3 } else { 1 };
    One {
        mode,
        form,
        keeps: Keeps::Totals,
        n: 3,
        d: 1,
        members: 2,
        rows: ROWS.to_vec(),
        totals: vec![0, 0],
        fwd: FWD.to_vec(),
        bwd: BWD.to_vec(),
        pins: vec![0; 3],
        couplings: vec![1, 2, -3],
        temperature: 1.0,
        cuts: vec![0.5; 3],
        reference: 2,
        seed: 1,
        flips: vec![1; 3],
        perms: [1, 0].repeat(entries),
        greys: vec![2; entries],
        labels: vec![0, 0, 1],
        grey_labels: vec![0, 0, 1],
        counts: vec![9; 4],
        sizes: vec![9; 4],
        member_sites: vec![1, 1, 0],
        found: vec![9],
        grey_found: vec![9],
        blue: vec![0, 1, 0],
        area: vec![2, 2, 3],
    }
}

impl One {
    fn label(&mut self) -> Result<Stepped, Refusal> {
        task_label(TaskLabel {
            mode: self.mode,
            form: self.form,
            n: self.n,
            d: self.d,
            members: self.members,
            rows: &self.rows,
            fwd: &self.fwd,
            bwd: &self.bwd,
            pins: Some(&self.pins),
            couplings: &self.couplings,
            temperature: self.temperature,
            cuts: &self.cuts,
            reference: self.reference,
            seed: self.seed,
            flips: &self.flips,
            perms: &self.perms,
            greys: &self.greys,
            labels: &mut self.labels,
            grey_labels: &mut self.grey_labels,
            counts: &mut self.counts,
            sizes: &mut self.sizes,
            member_sites: &mut self.member_sites,
            found: &mut self.found,
            grey_found: &mut self.grey_found,
            blue: &mut self.blue,
        })
    }

    fn choose(&mut self) -> Result<(), Refusal> {
        task_choose(TaskChoose {
            mode: self.mode,
            form: self.form,
            n: self.n,
            d: self.d,
            members: self.members,
            rows: &self.rows,
            pins: Some(&self.pins),
            reference: self.reference,
            seed: self.seed,
            flips: &self.flips,
            perms: &self.perms,
            greys: &self.greys,
            labels: &self.labels,
            grey_labels: &self.grey_labels,
            member_sites: &self.member_sites,
            blue: &self.blue,
            area: &mut self.area,
        })
    }

    fn write(&mut self) -> Result<(), Refusal> {
        task_write(TaskWrite {
            mode: self.mode,
            form: self.form,
            keeps: self.keeps,
            n: self.n,
            d: self.d,
            members: self.members,
            rows: &mut self.rows,
            totals: &mut self.totals,
            fwd: &self.fwd,
            bwd: &self.bwd,
            couplings: &self.couplings,
            member_sites: &self.member_sites,
            area: &self.area,
        })
    }

    /// What a step answers in place of which no buffer may change, or the number 0.
    pub fn refused(&self, step: usize) -> u8 {
        let mut after = self.clone();
        let answer = match step {
            0 => after.label().map(|_| ()),
            1 => after.choose(),
            _ => after.write(),
        };
        match answer {
            Ok(()) => 0,
            Err(refusal) => {
                // floats that are no number equal nothing
                assert_eq!(format!("{after:?}"), format!("{self:?}"));
                refusal.number
            }
        }
    }
}
