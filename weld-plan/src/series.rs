//! What is kept of a day's course: never more than some hundred points, however long it is.

/// The state after one sweep.
#[derive(Clone, Debug, PartialEq, Eq)]
pub struct Point {
    pub sweep: u64,
    /// The best total so far.
    pub best: i64,
    /// For each temperature, the sum of its replicas' totals: whole numbers, so that no rounding is stored.
    pub sums: Vec<i64>,
}

/// Points at every `stride`-th sweep. Where there are too many every second one goes and the stride doubles: what is kept depends on
/// the sweeps alone, and not on where a day was broken or how long it was to be.
#[derive(Clone, Debug, PartialEq, Eq)]
pub struct Series {
    pub stride: u64,
    pub points: Vec<Point>,
}

/// The most points that are kept.
pub const MOST: usize = 400;

impl Series {
    pub fn new() -> Series {
        Series { stride: 1, points: Vec::new() }
    }

    /// Whether the series wants a point of this sweep.
    pub fn wants(&self, sweep: u64) -> bool {
        sweep % self.stride == 0
    }

    pub fn push(&mut self, point: Point) {
        self.points.push(point);
        while self.points.len() > MOST {
            self.stride *= 2;
            let stride = self.stride;
            self.points.retain(|point| point.sweep % stride == 0);
        }
    }
}

impl Default for Series {
    fn default() -> Series {
        Series::new()
    }
}
