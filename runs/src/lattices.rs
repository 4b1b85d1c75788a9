//! Random lattices: any tables that are permutations, and rectangular tori.
use crate::rand::Rand;

#[derive(Clone, Copy, Debug, PartialEq, Eq)]
pub enum Size {
    Tiny,
    Small,
    Middle,
    Full,
}

impl Size {
    /// Mostly small; one call in 400 has the largest lattice.
    pub fn mixed(rand: &mut Rand) -> Size {
        match rand.range(1, 400) {
            1 => Size::Full,
            2..=20 => Size::Middle,
            21..=140 => Size::Small,
            _ => Size::Tiny,
        }
    }

    fn most(self) -> usize {
        match self {
            Size::Tiny => 8,
            Size::Small => 40,
            Size::Middle => 300,
            Size::Full => 4096,
        }
    }
}

pub struct Lattice {
    pub n: usize,
    pub d: usize,
    pub fwd: Vec<u32>,
}

/// Each direction a permutation of its own: random, a repetition or an inverse of an earlier one (double bonds),
/// the identity (self-bonds) or a shift.
fn scattered(rand: &mut Rand, size: Size) -> Lattice {
    let n = match size {
        Size::Full => rand.pick(&[4095, 4096]),
        _ => rand.range(1, size.most()),
    };
    let d = rand.range(1, 4);
    let mut directions: Vec<Vec<usize>> = Vec::new();
    for _ in 0..d {
        let next = match (rand.range(0, 7), directions.last()) {
            (0, Some(last)) => last.clone(),
            (1, Some(last)) => inverse(last),
            (2, _) => (0..n).collect(),
            (3, _) => (0..n).map(|i| (i + 1) % n).collect(),
            _ => rand.permutation(n),
        };
        directions.push(next);
    }
    let fwd = (0..n * d)
        .map(|bond| directions[bond % d][bond / d] as u32)
        .collect();
    Lattice { n, d, fwd }
}

fn inverse(of: &[usize]) -> Vec<usize> {
    let mut back = vec![0; of.len()];
    of.iter().enumerate().for_each(|(i, &to)| back[to] = i);
    back
}

/// A rectangular torus; sides of 1 and 2 give self-bonds and double bonds.
fn torus(rand: &mut Rand, size: Size) -> Lattice {
    let sides: Vec<usize> = match size {
        Size::Full => rand
            .pick::<&[usize]>(&[&[64, 64], &[16, 16, 16], &[8, 8, 8, 8], &[4096], &[2, 2048]])
            .to_vec(),
        _ => loop {
            let sides: Vec<usize> = (0..rand.range(1, 4)).map(|_| rand.range(1, 8)).collect();
            if sides.iter().product::<usize>() <= size.most() {
                break sides;
            }
        },
    };
    let (n, d) = (sides.iter().product(), sides.len());
    let step = |bond: usize| {
        let (i, along) = (bond / d, bond % d);
        let stride: usize = sides[..along].iter().product();
        let at = i / stride % sides[along];
        (i - at * stride + (at + 1) % sides[along] * stride) as u32
    };
    Lattice {
        n,
        d,
        fwd: (0..n * d).map(step).collect(),
    }
}

pub fn backward(n: usize, d: usize, fwd: &[u32]) -> Vec<u32> {
    let mut bwd = vec![0; n * d];
    for (bond, &to) in fwd.iter().enumerate() {
        bwd[to as usize * d + bond % d] = (bond / d) as u32;
    }
    bwd
}

pub fn any(rand: &mut Rand, size: Size) -> Lattice {
    match rand.range(0, 2) {
        0 => torus(rand, size),
        _ => scattered(rand, size),
    }
}
