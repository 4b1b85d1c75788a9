//! A sweep's tasks put together again.
use super::{Shared, Written};
use crate::answers::{Stepped, Swept};
use std::error::Error;
use std::fmt;
use std::sync::Arc;

/// What puts a sweep's tasks together again: [`Accepted::split`](crate::Accepted::split) makes one.
#[derive(Debug)]
pub struct Merging<'a> {
    shared: Arc<Shared<'a>>,
    count: usize,
}

impl<'a> Merging<'a> {
    pub(super) fn new(shared: Arc<Shared<'a>>, count: usize) -> Self {
        Merging { shared, count }
    }

    /// Takes the rows and totals of all tasks, in any order, to the panel, and counts what they answered. The outputs are already in
    /// the buffers that the sweep was lent. If it is not merged nothing is written.
    pub fn merge(
        self,
        tasks: Vec<Written<'a>>,
        spins: &mut [i8],
        totals: &mut [i64],
    ) -> Result<Swept, NotMerged> {
        let (n, s) = (self.shared.n, self.shared.s);
        if tasks
            .iter()
            .any(|task| !Arc::ptr_eq(&task.0.shared, &self.shared))
        {
            return Err(NotMerged::Foreign);
        }
        // no task is there twice, since there is one of each
        if tasks.len() != self.count {
            return Err(NotMerged::Missing);
        }
        if spins.len() != s * n || (self.shared.keeping() && totals.len() != s) {
            return Err(NotMerged::Length);
        }
        let mut swept = Swept {
            idle: 0,
            moved: 0,
            held: 0,
        };
        for Written(own, stepped) in tasks {
            for (&system, row) in own.group.iter().zip(own.rows.chunks_exact(n)) {
                spins[system as usize * n..][..n].copy_from_slice(row);
            }
            for (&system, total) in own.group.iter().zip(own.totals) {
                totals[system as usize] = total;
            }
            match stepped {
                Stepped::Idle => swept.idle += 1,
                Stepped::Moved => swept.moved += 1,
                Stepped::Held => swept.held += 1,
            }
        }
        Ok(swept)
    }
}

/// Why tasks are not put together. The panel is as it was.
#[derive(Clone, Copy, Debug, PartialEq, Eq, Hash)]
pub enum NotMerged {
    /// A task is one of another sweep.
    Foreign,
    /// A task of the sweep is not there.
    Missing,
    /// The spins are not s * n, or the totals, where they are kept, not s.
    Length,
}

impl fmt::Display for NotMerged {
    fn fmt(&self, f: &mut fmt::Formatter<'_>) -> fmt::Result {
        f.write_str(match self {
            NotMerged::Foreign => "not merged: a task is one of another sweep",
            NotMerged::Missing => "not merged: a task of the sweep is not there",
            NotMerged::Length => {
                "not merged: the panel's spins or totals have not the exact length"
            }
        })
    }
}

impl Error for NotMerged {}
