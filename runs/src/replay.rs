//! The replay list: the published Rust's answers as bytes, for a program that has neither Rust nor strings.
//!
//! The list is lower-case hexadecimal, two digits a byte. A line feed may stand between two bytes, has no meaning and
//! is skipped; the writer ends each field with one. Numbers of several bytes have the high byte first. All lengths
//! follow from the head of a case, so a reader needs no look-ahead:
//!
//! ```text
//! cases       2            how many cases follow
//! and for each case
//! kind        1            0 single move, 1 sweep
//! mode        1            0 houd, 1 pair, 2 perm, 3 gperm, 4 jorg, 5 cmr
//! form        1            0 SW, 1 Wolff, 2 observe
//! marks       1            bit 0: odd N in houd, which then observes, pair or jorg, outside the Rust's published domain; bit 1:
//!                          an idle task; bit 2: an acting component of one site; bit 3: a self-bond; bit 4: a double bond
//! n           2
//! D, S, N     1 each
//! t, r        1 each       single move: 1 and N
//! K           1            the number of tasks, t * floor(r / N); single move: 1
//! systems     t*r          the order, or the group of a single move
//! masks       t            1 masks; single move: 0
//! spins       S*n          01 or ff
//! forward     n*D * 2
//! backward    n*D * 2
//! couplings   n*D * 4      jorg, cmr; two's complement
//! temperature t * 4        jorg, cmr; three bytes m and one byte e, the number m / 2^e, exact in f32; e is at most 63
//! cuts        K*n*D * 4    jorg, cmr; likewise
//! references  K * 2        gperm
//! seeds       K * 2        Wolff
//! flips       K*n          SW but for perm, gperm
//! perms       K*n*N or K*N perm, gperm: SW or Wolff
//! greys       K*n or K     cmr: SW or Wolff
//! idle, moved 1 each       the tasks that answer so; a single move has one task
//! spins       S*n          after the call, like all that follows
//! labels      K*n * 2      the components' numbers
//! grey labels K*n * 2      cmr, SW and Wolff
//! counts      K*(n+1) * 2  of acting components, as the sizes are; the Rust's own have the sites that do not act in count 1
//! sizes       K*4 * 2
//! found       K * 2        how many components each task has, those that do not act too
//! grey found  K * 2        cmr, SW and Wolff
//! ```
//!
//! In SW the entry r of a task's flips, perms or greys is the choice of its component number r, greys of the grey one;
//! entries past the last number are not used.
//!
//! A masked task's choices are faulty (its cuts are 0) and its outputs `ffff`: fill all outputs with 65535 before the
//! call and compare all of them after it. n, S and N are at most 8, n*D at most 12, D, K and t at most 4.
use crate::case::{Choices, Lent, Panel, Single, Swept};
use crate::model::lengths;
use calls::{Coding, Form, Keeps, Mode};
use std::fmt::Write;

/// What an output that must be left alone holds.
pub const UNTOUCHED: u32 = 0xffff;

pub const ODD: u8 = 1;
pub const IDLE: u8 = 2;
pub const ALONE: u8 = 4;
pub const SELF_BOND: u8 = 8;
pub const DOUBLE_BOND: u8 = 16;

/// A case as a sweep; a single move is one of one group, and only its group is in the panel's order.
#[derive(Clone, Debug)]
pub struct Entry {
    pub single: bool,
    pub marks: u8,
    pub case: Swept,
    pub idle: u8,
    pub moved: u8,
    pub after: Lent,
}

impl Entry {
    /// The single move that an entry of that kind stands for.
    pub fn as_single(&self) -> Single {
        let case = &self.case;
        let first = |numbers: &[u32]| numbers.first().map_or(0, |&number| number as usize);
        Single {
            panel: case.panel.clone(),
            group: case.order.clone(),
            temperature: case.temperatures.first().copied().unwrap_or(1.0),
            reference: first(&case.references),
            seed: first(&case.seeds),
            choices: case.choices.clone(),
            lent: case.lent.clone(),
        }
    }
}

/// m and e with the number m / 2^e, if it is one with m below 2^24 and e up to 63.
pub fn fraction(number: f32) -> Option<(u32, u8)> {
    if number == 0.0 && number.is_sign_positive() {
        return Some((0, 0));
    }
    if number.is_nan() || number.is_sign_negative() {
        return None;
    }
    let mut whole = f64::from(number);
    let mut e = 0;
    while whole.fract() != 0.0 && e < 63 {
        whole *= 2.0;
        e += 1;
    }
    (whole.fract() == 0.0 && whole < 16_777_216.0).then_some((whole as u32, e))
}

struct Writer(String);

impl Writer {
    fn numbers(&mut self, numbers: impl IntoIterator<Item = u32>, bytes: usize) {
        let before = self.0.len();
        for number in numbers {
            for byte in &number.to_be_bytes()[4 - bytes..] {
                let _ = write!(self.0, "{byte:02x}");
            }
        }
        if self.0.len() > before {
            self.0.push('\n');
        }
    }

    fn bytes(&mut self, bytes: impl IntoIterator<Item = u8>) {
        self.numbers(bytes.into_iter().map(u32::from), 1);
    }

    /// Of a masked area, which is not a number here, nothing is kept but its length.
    fn fractions(&mut self, numbers: &[f32]) {
        let number = |&number: &f32| {
            let (m, e) = fraction(number).unwrap_or((0, 0));
            m << 8 | u32::from(e)
        };
        self.numbers(numbers.iter().map(number), 4);
    }
}

pub fn head(cases: usize) -> String {
    format!("{cases:04x}\n")
}

pub fn write(entry: &Entry) -> String {
    let case = &entry.case;
    let (panel, choices) = (&case.panel, &case.choices);
    let tasks = case.t * (case.r / case.members);
    let mut out = Writer(String::new());
    let [high, low] = (panel.n as u16).to_be_bytes();
    out.bytes([
        u8::from(!entry.single),
        panel.mode as u8,
        panel.form as u8,
        entry.marks,
        high,
        low,
        panel.d as u8,
        panel.s as u8,
        case.members as u8,
        case.t as u8,
        case.r as u8,
        tasks as u8,
    ]);
    out.numbers(case.order.iter().copied(), 1);
    out.bytes(case.masks.iter().copied());
    out.bytes(case.lent.spins.iter().map(|&spin| spin as u8));
    out.numbers(panel.fwd.iter().copied(), 2);
    out.numbers(panel.bwd.iter().copied(), 2);
    out.numbers(panel.couplings.iter().map(|&j| j as u32), 4);
    out.fractions(&case.temperatures);
    out.fractions(&choices.cuts);
    out.numbers(case.references.iter().copied(), 2);
    out.numbers(case.seeds.iter().copied(), 2);
    out.bytes(choices.flips.iter().copied());
    out.bytes(choices.perms.iter().copied());
    out.bytes(choices.greys.iter().copied());
    out.bytes([entry.idle, entry.moved]);
    out.bytes(entry.after.spins.iter().map(|&spin| spin as u8));
    for output in [
        &entry.after.labels,
        &entry.after.grey_labels,
        &entry.after.counts,
        &entry.after.sizes,
        &entry.after.found,
        &entry.after.grey_found,
    ] {
        out.numbers(output.iter().copied(), 2);
    }
    out.0
}

/// Reads a list byte by byte.
pub struct Reader<'a>(std::slice::Iter<'a, u8>);

impl<'a> Reader<'a> {
    pub fn new(list: &'a str) -> Self {
        Reader(list.as_bytes().iter())
    }

    fn digit(&mut self) -> u8 {
        match self.0.next() {
            Some(&digit @ b'0'..=b'9') => digit - b'0',
            Some(&digit @ b'a'..=b'f') => digit - b'a' + 10,
            Some(b'\n') => self.digit(),
            other => panic!("not a digit of the list: {other:?}"),
        }
    }

    fn number(&mut self, bytes: usize) -> u32 {
        (0..2 * bytes).fold(0, |number, _| number << 4 | u32::from(self.digit()))
    }

    fn numbers(&mut self, count: usize, bytes: usize) -> Vec<u32> {
        (0..count).map(|_| self.number(bytes)).collect()
    }

    fn bytes(&mut self, count: usize) -> Vec<u8> {
        (0..count).map(|_| self.number(1) as u8).collect()
    }

    fn spins(&mut self, count: usize) -> Vec<i8> {
        (0..count).map(|_| self.number(1) as u8 as i8).collect()
    }

    fn fractions(&mut self, count: usize) -> Vec<f32> {
        (0..count)
            .map(|_| self.number(3) as f32 / (1u64 << self.number(1)) as f32)
            .collect()
    }

    fn outputs(&mut self, mode: Mode, form: Form, sizes: [usize; 4], spins: usize) -> Lent {
        let [n, d, members, tasks] = sizes;
        let exact = lengths(mode, form, n, d, members, tasks);
        Lent {
            spins: self.spins(spins),
            columns: Vec::new(),
            totals: Vec::new(),
            labels: self.numbers(exact.labels.unwrap_or(0), 2),
            grey_labels: self.numbers(exact.grey_labels.unwrap_or(0), 2),
            counts: self.numbers(exact.counts.unwrap_or(0), 2),
            sizes: self.numbers(exact.sizes.unwrap_or(0), 2),
            member_sites: Vec::new(),
            found: self.numbers(exact.found.unwrap_or(0), 2),
            grey_found: self.numbers(exact.grey_found.unwrap_or(0), 2),
        }
    }

    fn entry(&mut self) -> Entry {
        let single = self.number(1) == 0;
        let mode = Mode::ALL[self.number(1) as usize];
        let form = Form::LABELLED[self.number(1) as usize];
        let marks = self.number(1) as u8;
        let n = self.number(2) as usize;
        let mut size = || self.number(1) as usize;
        let (d, s, members, t, r, tasks) = (size(), size(), size(), size(), size(), size());
        let exact = lengths(mode, form, n, d, members, tasks);
        let optional = |length: Option<usize>| length.unwrap_or(0);
        let order = self.numbers(t * r, 1);
        let masks = self.bytes(t);
        let spins = self.spins(s * n);
        let panel = Panel {
            mode,
            form,
            coding: Coding::Rows,
            keeps: Keeps::Nothing,
            n,
            d,
            s,
            team: 0,
            owners: vec![0; s],
            fwd: self.numbers(n * d, 2),
            bwd: self.numbers(n * d, 2),
            // the Rust knows no pins
            pins: vec![0; n],
            couplings: self
                .numbers(optional(exact.couplings), 4)
                .iter()
                .map(|&j| j as i32)
                .collect(),
        };
        let temperatures = self.fractions(if mode.draws() { t } else { 0 });
        let cuts = self.fractions(optional(exact.cuts));
        let references = self.numbers(optional(exact.references), 2);
        let seeds = self.numbers(optional(exact.seeds), 2);
        let choices = Choices {
            cuts,
            flips: self.bytes(optional(exact.flips)),
            perms: self.bytes(optional(exact.perms)),
            greys: self.bytes(optional(exact.greys)),
        };
        let (idle, moved) = (self.number(1) as u8, self.number(1) as u8);
        let after = self.outputs(mode, form, [n, d, members, tasks], s * n);
        let case = Swept {
            panel,
            t,
            r,
            members,
            order,
            masks,
            temperatures,
            references,
            seeds,
            choices,
            lent: Lent::filled(exact, spins, UNTOUCHED, 0),
        };
        Entry {
            single,
            marks,
            case,
            idle,
            moved,
            after,
        }
    }

    /// The whole list; anything after it but line feeds is an error.
    pub fn entries(mut self) -> Vec<Entry> {
        let cases = self.number(2);
        let entries = (0..cases).map(|_| self.entry()).collect();
        assert!(self.0.all(|&byte| byte == b'\n'), "more than the list says");
        entries
    }
}
