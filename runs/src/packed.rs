//! A move on rows as the same move on its group's bytes (11/14), and back; and rows and bytes that are packed and unpacked by themselves.
use crate::case::{Lent, Packed, Single};
use crate::make::UNTOUCHED_BYTE;
use calls::{Answer, Pack, Port, Unpack};

/// What a byte has room for.
const MOST: usize = 8;

/// The rows of these systems, in their order.
pub fn rows_of(group: &[u32], spins: &[i8], n: usize) -> Vec<i8> {
    let row = |&system: &u32| &spins[system as usize * n..(system as usize + 1) * n];
    group.iter().flat_map(row).copied().collect()
}

/// A byte for each site, the sum of 2 to the k over the members k that are +1. A ninth member, for which there is no room, is left out.
fn columns_of(rows: &[i8], n: usize) -> Vec<u8> {
    let mut columns = vec![0; n];
    for (at, _) in rows.iter().enumerate().filter(|(_, &spin)| spin == 1) {
        columns[at % n] += u8::try_from(1u32 << (at / n).min(MOST)).unwrap_or(0);
    }
    columns
}

impl Single {
    /// Whether each system of the group has a row of spins, and a total where totals are kept.
    fn has_rows(&self) -> bool {
        let (panel, spins) = (&self.panel, &self.lent.spins);
        let named = || self.group.iter().all(|&system| (system as usize) < panel.s);
        let whole = panel.n > 0 && panel.s.checked_mul(panel.n) == Some(spins.len());
        let totals = !panel.keeping() || self.lent.totals.len() == panel.s;
        let spin = |spin: &i8| matches!(spin, 1 | -1);
        whole && totals && named() && rows_of(&self.group, spins, panel.n).iter().all(spin)
    }

    /// What is lent with the group's rows as columns and its totals in the members' order; other systems have no place there.
    pub fn packed_lent(&self, lent: &Lent) -> Lent {
        let rows = rows_of(&self.group, &lent.spins, self.panel.n);
        let totals = match self.panel.keeping() {
            true => self
                .group
                .iter()
                .map(|&k| lent.totals[k as usize])
                .collect(),
            false => lent.totals.clone(),
        };
        Lent {
            spins: Vec::new(),
            columns: columns_of(&rows, self.panel.n),
            totals,
            ..lent.clone()
        }
    }

    /// The same move on bytes, where the group has rows that can be packed.
    pub fn packed(&self) -> Option<Packed> {
        self.has_rows().then(|| Packed {
            panel: self.panel.clone(),
            members: self.group.len(),
            temperature: self.temperature,
            reference: self.reference,
            seed: self.seed,
            choices: self.choices.clone(),
            lent: self.packed_lent(&self.lent),
        })
    }

    /// The move made on bytes, where there is one, and its rows and totals put back into their places.
    pub fn run_packed(&self, side: &mut dyn Port) -> (Answer, Lent) {
        let packed = self.packed().expect("its group has rows");
        let (answer, after) = packed.run(side);
        let n = self.panel.n;
        let (mut spins, mut totals) = (self.lent.spins.clone(), self.lent.totals.clone());
        for (k, &system) in self.group.iter().enumerate() {
            let row = &mut spins[system as usize * n..][..n];
            for (spin, byte) in row.iter_mut().zip(&after.columns) {
                *spin = spin_of(*byte, k);
            }
            if self.panel.keeping() {
                totals[system as usize] = after.totals[k];
            }
        }
        let lent = Lent {
            spins,
            columns: Vec::new(),
            totals,
            ..after
        };
        (answer, lent)
    }
}

fn spin_of(byte: u8, k: usize) -> i8 {
    if byte & 1 << k != 0 {
        1
    } else {
        -1
    }
}

impl Packed {
    /// The same move on rows, with S = N, one owner and the group 0 to N - 1. A byte with a bit too high is a site of zeros, which are no spins; columns of
    /// another length are rows of another, and a group that is too large is one of nine.
    pub fn unpacked(&self) -> Single {
        let members = self.members.min(MOST + 1);
        let spin = |k: usize, byte: u8| match u16::from(byte) >> members {
            0 => spin_of(byte, k),
            _ => 0,
        };
        let row = |k: usize| self.lent.columns.iter().map(move |&byte| spin(k, byte));
        let mut panel = self.panel.clone();
        panel.of_one_team(members);
        Single {
            panel,
            group: (0..members as u32).collect(),
            temperature: self.temperature,
            reference: self.reference,
            seed: self.seed,
            choices: self.choices.clone(),
            lent: Lent {
                spins: (0..members.min(MOST)).flat_map(row).collect(),
                columns: Vec::new(),
                ..self.lent.clone()
            },
        }
    }

    /// What the move must give: what it gives on rows.
    pub fn by_rows(&self, side: &mut dyn Port) -> (Answer, Lent) {
        let rows = self.unpacked();
        match rows.run(side) {
            (Answer::Refused(number), lent) => {
                assert_eq!(lent, rows.lent, "{rows:?}");
                (Answer::Refused(number), self.lent.clone())
            }
            (answer, lent) => (answer, rows.packed_lent(&lent)),
        }
    }

    /// Its columns, and their rows.
    pub fn layout(&self) -> Layout {
        Layout {
            n: self.panel.n,
            members: self.members,
            rows: self.unpacked().lent.spins,
            columns: self.lent.columns.clone(),
        }
    }
}

/// Rows and columns, of which either is made of the other.
#[derive(Clone, Debug)]
pub struct Layout {
    pub n: usize,
    pub members: usize,
    pub rows: Vec<i8>,
    pub columns: Vec<u8>,
}

impl Layout {
    /// The number that comes back, and the columns, which are as long as those at hand.
    pub fn pack(&self, side: &mut dyn Port) -> (u8, Vec<u8>) {
        let mut columns = vec![UNTOUCHED_BYTE; self.columns.len()];
        let number = side.pack(Pack {
            n: self.n,
            members: self.members,
            rows: &self.rows,
            columns: &mut columns,
        });
        (number, columns)
    }

    /// The number that comes back, and the rows, which are as long as those at hand.
    pub fn unpack(&self, side: &mut dyn Port) -> (u8, Vec<i8>) {
        let mut rows = vec![UNTOUCHED_BYTE as i8; self.rows.len()];
        let number = side.unpack(Unpack {
            n: self.n,
            members: self.members,
            columns: &self.columns,
            rows: &mut rows,
        });
        (number, rows)
    }
}
