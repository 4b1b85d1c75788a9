//! A day at the yard: an edge list comes in, the best replica leaves as a weld plan.
//!
//! Single-seam updates and replica exchange are made here, cluster moves and totals by the proved library (`tsorvenk`), and every
//! draw comes from its source. docs/DAY.md says what the program reads, writes and promises.
pub mod checkpoint;
pub mod clusters;
pub mod config;
pub mod day;
pub mod diagnose;
pub mod exchange;
pub mod fault;
pub mod files;
pub mod flags;
pub mod grid;
pub mod logarithm;
pub mod metropolis;
pub mod modes;
pub mod out;
pub mod panel;
pub mod pins;
pub mod progress;
pub mod run;
pub mod sample;
pub mod series;
pub mod sha256;
pub mod signal;
pub mod state;
pub mod temperatures;
