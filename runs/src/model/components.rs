//! Components, their numbers and what is counted of them.

/// The components of a table of holding bonds, numbered 0, 1, 2 and so on in the order of their smallest sites.
pub struct Components {
    /// Each site's number.
    pub labels: Vec<usize>,
    /// By number, and so are the sizes and what is held.
    smallest: Vec<usize>,
    pub sizes: Vec<usize>,
    /// Whether one of its sites is pinned (9/14).
    pub held: Vec<bool>,
}

/// The smallest site of each site's component: both ends of a holding bond take the smaller one until nothing changes.
fn smallest_sites(n: usize, d: usize, fwd: &[u32], holds: &[bool]) -> Vec<usize> {
    let mut smallest: Vec<usize> = (0..n).collect();
    loop {
        let mut changed = false;
        for bond in (0..n * d).filter(|&bond| holds[bond]) {
            let (i, j) = (bond / d, fwd[bond] as usize);
            let smaller = smallest[i].min(smallest[j]);
            changed |= smallest[i] != smaller || smallest[j] != smaller;
            (smallest[i], smallest[j]) = (smaller, smaller);
        }
        if !changed {
            return smallest;
        }
    }
}

impl Components {
    /// A number is the rank of the component's smallest site among those of all components. Where there are no pins nothing is held.
    pub fn new(n: usize, d: usize, fwd: &[u32], holds: &[bool], pins: &[u8]) -> Self {
        let of = smallest_sites(n, d, fwd, holds);
        let smallest: Vec<usize> = (0..n).filter(|&i| of[i] == i).collect();
        let rank = |site: &usize| smallest.partition_point(|other| other < site);
        let labels: Vec<usize> = of.iter().map(rank).collect();
        let mut sizes = vec![0; smallest.len()];
        labels.iter().for_each(|&label| sizes[label] += 1);
        let mut held = vec![false; smallest.len()];
        let pinned = labels.iter().zip(pins).filter(|(_, &pin)| pin == 1);
        pinned.for_each(|(&label, _)| held[label] = true);
        Self {
            labels,
            smallest,
            sizes,
            held,
        }
    }

    pub fn found(&self) -> usize {
        self.smallest.len()
    }

    /// The sizes of those that count, which their smallest sites say.
    fn counted_sizes(&self, counted: &[bool]) -> Vec<usize> {
        (0..self.found())
            .filter(|&number| counted[self.smallest[number]])
            .map(|number| self.sizes[number])
            .collect()
    }

    pub fn counts(&self, counted: &[bool]) -> Vec<u32> {
        let mut counts = vec![0; self.labels.len() + 1];
        for size in self.counted_sizes(counted) {
            counts[size] += 1;
        }
        counts
    }

    pub fn four_largest(&self, counted: &[bool]) -> [u32; 4] {
        let mut sizes = self.counted_sizes(counted);
        sizes.sort_by(|a, b| b.cmp(a));
        std::array::from_fn(|k| sizes.get(k).map_or(0, |&size| size as u32))
    }
}
