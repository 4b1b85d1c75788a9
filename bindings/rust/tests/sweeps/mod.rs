//! Sweeps of every mode and form on a small panel of two teams, and the one call that each is.
use tsorvenk::*;

/// A square of four by four; each site has a right and a lower neighbour.
pub const SITES: usize = 16;
pub const TEMPERATURES: usize = 3;

pub fn table(by: usize) -> Vec<u32> {
    let at = |x: usize, y: usize| (y % 4 * 4 + x % 4) as u32;
    let sites = (0..SITES).map(|site| (site % 4, site / 4));
    sites
        .flat_map(|(x, y)| [at(x + by, y), at(x, y + by)])
        .collect()
}

/// Numbers that look drawn (xorshift).
pub struct Drawn(pub u64);

impl Drawn {
    pub fn below(&mut self, m: usize) -> usize {
        self.0 ^= self.0 << 13;
        self.0 ^= self.0 >> 7;
        self.0 ^= self.0 << 17;
        (self.0 >> 33) as usize % m
    }

    pub fn many<T>(&mut self, count: usize, one: impl Fn(&mut Drawn) -> T) -> Vec<T> {
        (0..count).map(|_| one(self)).collect()
    }

    pub fn shuffle<T>(&mut self, list: &mut [T]) {
        for k in (1..list.len()).rev() {
            list.swap(k, self.below(k + 1));
        }
    }
}

/// A panel of two teams; team 1 may have no systems.
#[derive(Clone, Debug, PartialEq)]
pub struct Panel {
    pub owners: Vec<u8>,
    pub spins: Vec<i8>,
    pub totals: Vec<i64>,
    pub fwd: Vec<u32>,
    pub bwd: Vec<u32>,
    pub pins: Option<Vec<u8>>,
    pub couplings: Vec<i32>,
}

/// One team's sweep, all of its choices.
#[derive(Clone, Debug)]
pub struct Given {
    pub mode: Mode,
    pub form: Form,
    pub coding: Coding,
    pub keeps: Keeps,
    pub team: u8,
    pub r: usize,
    pub members: usize,
    pub order: Vec<u32>,
    pub masks: Vec<u8>,
    pub temperatures: Vec<f32>,
    pub cuts: Vec<f32>,
    pub references: Vec<u32>,
    pub seeds: Vec<u32>,
    pub flips: Vec<u8>,
    pub perms: Vec<u8>,
    pub greys: Vec<u8>,
}

/// The buffers that a sweep writes beside the panel.
#[derive(Clone, Debug, PartialEq)]
pub struct Lent {
    pub labels: Vec<u32>,
    pub grey_labels: Vec<u32>,
    pub counts: Vec<u32>,
    pub sizes: Vec<u32>,
    pub member_sites: Vec<u8>,
    pub found: Vec<u32>,
    pub grey_found: Vec<u32>,
}

/// Two groups at a temperature and one system left over, or as many as there is room for.
pub fn replicas(members: usize) -> usize {
    [0, 0, 5, 7, 9, 10, 6, 7, 8][members]
}

pub fn tasks(given: &Given) -> usize {
    TEMPERATURES * (given.r / given.members)
}

impl Panel {
    /// So many systems of either team, in any order.
    pub fn drawn(drawn: &mut Drawn, each: [usize; 2], pinned: Option<usize>) -> Panel {
        let mut owners = [vec![0; each[0]], vec![1; each[1]]].concat();
        drawn.shuffle(&mut owners);
        let s = owners.len();
        Panel {
            owners,
            spins: drawn.many(s * SITES, |drawn| [-1, 1][drawn.below(2)]),
            totals: drawn.many(s, |drawn| drawn.below(1000) as i64 - 500),
            fwd: table(1),
            bwd: table(3),
            pins: pinned.map(|site| (0..SITES).map(|i| u8::from(i == site)).collect()),
            couplings: drawn.many(2 * SITES, |drawn| drawn.below(7) as i32 - 3),
        }
    }

    /// The first site acts in every group but in gperm, which is gauged by it; there the second does. Of the last task no site does.
    pub fn ready(&mut self, given: &Given) {
        let last = (TEMPERATURES - 1) * given.r + (given.r / given.members - 1) * given.members;
        for (at, &system) in given.order.iter().enumerate() {
            let (place, row) = (
                at % given.r % given.members,
                &mut self.spins[system as usize * SITES..][..SITES],
            );
            row[0] = if place % 2 == 0 { 1 } else { -1 };
            row[1] = if place == 0 { -row[0] } else { row[0] };
            if (last..last + given.members).contains(&at) {
                row.fill(1);
            }
        }
    }
}

pub fn given(drawn: &mut Drawn, panel: &Panel, mode: Mode, form: Form, members: usize) -> Given {
    let (r, team) = (replicas(members), 0);
    let k = TEMPERATURES * (r / members);
    let sw = form == Form::Sw;
    let own = |system: &u32| panel.owners[*system as usize] == team;
    let mut order: Vec<u32> = (0..panel.owners.len() as u32).filter(own).collect();
    drawn.shuffle(&mut order);
    let row = |drawn: &mut Drawn| {
        let mut row: Vec<u8> = (0..members as u8).collect();
        drawn.shuffle(&mut row);
        // Wolff and grow take no identity
        if !sw && row.is_sorted() {
            row.rotate_left(1);
        }
        row
    };
    let entries = if sw { k * SITES } else { k };
    Given {
        mode,
        form,
        coding: Coding::Rows,
        keeps: Keeps::Totals,
        team,
        r,
        members,
        order,
        masks: vec![0, 1, 0],
        temperatures: vec![1.5, 2.0, 3.5],
        cuts: drawn.many(k * 2 * SITES, |drawn| drawn.below(5) as f32),
        references: vec![0; k],
        seeds: vec![u32::from(mode == Mode::Gperm); k],
        flips: drawn.many(k * SITES, |drawn| drawn.below(2) as u8),
        perms: drawn.many(entries, row).concat(),
        greys: drawn.many(entries, |drawn| 1 + drawn.below(3) as u8),
    }
}

pub fn lent(given: &Given) -> Lent {
    let k = tasks(given);
    Lent {
        labels: vec![9; k * SITES],
        grey_labels: vec![9; k * SITES],
        counts: vec![9; k * (SITES + 1)],
        sizes: vec![9; k * 4],
        member_sites: vec![9; k * SITES],
        found: vec![9; k],
        grey_found: vec![9; k],
    }
}

/// The sweep without its spins and totals.
pub fn call<'a>(panel: &'a Panel, given: &'a Given, lent: &'a mut Lent) -> Sweep<'a> {
    Sweep {
        mode: given.mode,
        form: given.form,
        coding: given.coding,
        keeps: given.keeps,
        n: SITES,
        d: 2,
        s: panel.owners.len(),
        team: given.team,
        t: TEMPERATURES,
        r: given.r,
        members: given.members,
        owners: Some(&panel.owners),
        fwd: &panel.fwd,
        bwd: &panel.bwd,
        pins: panel.pins.as_deref(),
        couplings: &panel.couplings,
        order: &given.order,
        masks: &given.masks,
        temperatures: &given.temperatures,
        cuts: &given.cuts,
        references: &given.references,
        seeds: &given.seeds,
        flips: &given.flips,
        perms: &given.perms,
        greys: &given.greys,
        labels: &mut lent.labels,
        grey_labels: &mut lent.grey_labels,
        counts: &mut lent.counts,
        sizes: &mut lent.sizes,
        member_sites: &mut lent.member_sites,
        found: &mut lent.found,
        grey_found: &mut lent.grey_found,
        ..Default::default()
    }
}

pub type Ended = (Result<Swept, Refusal>, Panel, Lent);

/// The one call.
pub fn swept(panel: &Panel, given: &Given) -> Ended {
    let (mut after, mut lent) = (panel.clone(), lent(given));
    let answer = sweep(Sweep {
        spins: &mut after.spins,
        totals: &mut after.totals,
        ..call(panel, given, &mut lent)
    });
    (answer, after, lent)
}
