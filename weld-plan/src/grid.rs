//! The panel's shape: seams in rows and columns, and the neighbour tables that the library takes.
use crate::fault::Fault;

/// Directions: to the right and down.
pub const D: usize = 2;

/// Seams beside and below each other, counted row by row.
#[derive(Clone, Copy, Debug, PartialEq, Eq)]
pub struct Grid {
    pub width: usize,
    pub height: usize,
}

impl Grid {
    /// "32x24": 32 seams in each of 24 rows.
    pub fn parse(text: &str) -> Result<Grid, Fault> {
        let sides = text.split_once(['x', 'X']).and_then(|(w, h)| Some((w.parse().ok()?, h.parse().ok()?)));
        let fault = |why: &str| Err(Fault::input(format!("--grid {text}: {why}")));
        match sides {
            None => fault("a grid is two numbers with an x between them, like 32x32"),
            Some((0, _) | (_, 0)) => fault("a grid has at least one row and one column"),
            Some((width, height)) if usize::saturating_mul(width, height) > 4096 => fault("a panel has at most 4096 seams"),
            Some((width, height)) => Ok(Grid { width, height }),
        }
    }

    /// How many seams there are.
    pub fn seams(self) -> usize {
        self.width * self.height
    }

    /// A site's row and column, from 0.
    pub fn place(self, site: usize) -> (usize, usize) {
        (site / self.width, site % self.width)
    }

    /// Whether two sites lie side by side or one below the other, with no step over the panel's edge.
    pub fn neighbours(self, a: usize, b: usize) -> bool {
        let ((r, c), (s, d)) = (self.place(a), self.place(b));
        r.abs_diff(s) + c.abs_diff(d) == 1
    }

    /// The forward and backward neighbours. The library's tables must have a way back from everywhere, so that a row's last seam goes
    /// on to its first: bonds over the edge are there, and have the coupling 0 for good.
    pub fn tables(self) -> (Vec<u32>, Vec<u32>) {
        let Grid { width, height } = self;
        let (mut fwd, mut bwd) = (Vec::new(), Vec::new());
        for site in 0..self.seams() {
            let (row, column) = self.place(site);
            fwd.push((row * width + (column + 1) % width) as u32);
            fwd.push(((row + 1) % height * width + column) as u32);
            bwd.push((row * width + (column + width - 1) % width) as u32);
            bwd.push(((row + height - 1) % height * width + column) as u32);
        }
        (fwd, bwd)
    }
}

impl std::fmt::Display for Grid {
    fn fmt(&self, f: &mut std::fmt::Formatter<'_>) -> std::fmt::Result {
        write!(f, "{}x{}", self.width, self.height)
    }
}
