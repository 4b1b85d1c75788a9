//! The library's sweeps: choices are drawn, the proved code moves the spins and keeps the totals.
use crate::config::Config;
use crate::fault::Fault;
use crate::grid::D;
use crate::logarithm::minus_log;
use crate::modes::Use;
use crate::panel::Panel;
use crate::state::{State, Tally};
use tsorvenk::{Form, Keeps, Mode, Source, Sweep, Swept};

/// What is lent to a sweep and written by it, kept from one to the next.
#[derive(Default)]
pub struct Buffers {
    cuts: Vec<f32>,
    references: Vec<u32>,
    seeds: Vec<u32>,
    flips: Vec<u8>,
    perms: Vec<u8>,
    greys: Vec<u8>,
    labels: Vec<u32>,
    grey_labels: Vec<u32>,
    counts: Vec<u32>,
    sizes: Vec<u32>,
    member_sites: Vec<u8>,
    found: Vec<u32>,
    grey_found: Vec<u32>,
}

/// Whether a site acts, by the mode's rule (document 01): a one-cluster move wants a seed that does.
fn acts(mode: Mode, rows: &[&[i8]], reference: usize, site: usize) -> bool {
    let differ = |pair: &[&[i8]]| pair.len() == 2 && pair[0][site] != pair[1][site];
    let gauged = |row: &&[i8]| row[site] * row[reference];
    match mode {
        Mode::Houd => rows.iter().map(|row| i32::from(row[site])).sum::<i32>() == 0,
        Mode::Pair | Mode::Jorg => rows.chunks(2).any(differ),
        Mode::Perm => rows.iter().any(|row| row[site] != rows[0][site]),
        Mode::Gperm => rows.iter().any(|row| gauged(row) != gauged(&rows[0])),
        Mode::Cmr => true,
    }
}

/// For each group a site that acts, each as likely as another; where none does the group is idle, and any will do.
fn draw_seeds(panel: &Panel, one: Use, state: &mut State, replicas: usize, buffers: &mut Buffers) -> Result<(), Fault> {
    let (n, groups) = (panel.n, replicas / one.members);
    for (task, seed) in buffers.seeds.iter_mut().enumerate() {
        let first = task / groups * replicas + task % groups * one.members;
        let row = |&system: &u32| &state.spins[system as usize * n..(system as usize + 1) * n];
        let rows: Vec<&[i8]> = state.order[first..first + one.members].iter().map(row).collect();
        let reference = buffers.references.get(task).map_or(0, |&site| site as usize);
        let acting: Vec<u32> = (0..n).filter(|&site| acts(one.mode, &rows, reference, site)).map(|site| site as u32).collect();
        *seed = match acting.len() {
            0 => 0,
            some => acting[state.source.below(some as u32)? as usize],
        };
    }
    Ok(())
}

impl Buffers {
    /// Every buffer at the length that this mode and form take, and empty where it is not taken.
    fn fit(&mut self, n: usize, tasks: usize, one: Use) {
        let labelled = one.form != Form::Grow;
        let permutes = matches!(one.mode, Mode::Perm | Mode::Gperm);
        let drawn = matches!(one.mode, Mode::Jorg | Mode::Cmr);
        let cmr = one.mode == Mode::Cmr;
        let choices = if one.form == Form::Sw { tasks * n } else { tasks };
        let size = |taken: bool, size: usize| if taken { size } else { 0 };
        self.cuts.resize(size(drawn, tasks * n * D), 0.0);
        self.references.resize(size(one.mode == Mode::Gperm, tasks), 0);
        self.seeds.resize(size(one.form != Form::Sw, tasks), 0);
        self.flips.resize(size(one.form == Form::Sw && !permutes, tasks * n), 0);
        self.perms.resize(size(permutes, choices * one.members), 0);
        self.greys.resize(size(cmr, choices), 0);
        self.labels.resize(size(labelled, tasks * n), 0);
        self.grey_labels.resize(size(labelled && cmr, tasks * n), 0);
        self.counts.resize(size(labelled, tasks * (n + 1)), 0);
        self.sizes.resize(size(labelled, tasks * 4), 0);
        self.member_sites.resize(size(!labelled, tasks * n), 0);
        self.found.resize(size(labelled, tasks), 0);
        self.grey_found.resize(size(labelled && cmr, tasks), 0);
    }

    /// The choices but for the seeds, from the library's source; a cut is minus the logarithm of one of its words.
    fn draw(&mut self, n: usize, one: Use, source: &mut Source) -> Result<(), Fault> {
        for cut in &mut self.cuts {
            *cut = minus_log(source.word()?) as f32;
        }
        source.fill_below(n as u32, &mut self.references)?;
        source.fill_flips(&mut self.flips)?;
        if one.form == Form::Sw {
            source.fill_permutations(one.members, &mut self.perms)?;
            source.fill_bytes_below(4, &mut self.greys)?;
        } else {
            source.wolff_permutation(one.members, &mut self.perms)?;
            source.wolff_grey(&mut self.greys)?;
        }
        Ok(())
    }

    /// What the sweep counted or grew.
    fn tell(&self, n: usize, swept: Swept, tally: &mut Tally) {
        tally.moved += u64::from(swept.moved);
        tally.idle += u64::from(swept.idle);
        tally.held += u64::from(swept.held);
        for counts in self.counts.chunks(n + 1) {
            for (size, &count) in counts.iter().enumerate().filter(|(_, &count)| count > 0) {
                tally.clusters += u64::from(count);
                tally.sites += u64::from(count) * size as u64;
                tally.largest = tally.largest.max(size as u64);
            }
        }
        for members in self.member_sites.chunks(n) {
            let sites: u64 = members.iter().map(|&member| u64::from(member)).sum();
            tally.clusters += u64::from(sites > 0);
            tally.sites += sites;
            tally.largest = tally.largest.max(sites);
        }
    }
}

/// One sweep of one mode over all temperatures.
pub fn sweep(panel: &Panel, config: &Config, which: usize, state: &mut State, buffers: &mut Buffers) -> Result<(), Fault> {
    let (one, n) = (config.modes[which], panel.n);
    let (t, r) = (config.temperatures.len(), config.replicas);
    buffers.fit(n, t * (r / one.members), one);
    buffers.draw(n, one, &mut state.source)?;
    draw_seeds(panel, one, state, r, buffers)?;
    let swept = tsorvenk::sweep(Sweep {
        mode: one.mode,
        form: one.form,
        keeps: Keeps::Totals,
        n,
        d: D,
        s: config.systems(),
        t,
        r,
        members: one.members,
        spins: &mut state.spins,
        totals: &mut state.totals,
        fwd: &panel.fwd,
        bwd: &panel.bwd,
        pins: Some(&panel.pins),
        couplings: &panel.couplings,
        order: &state.order,
        masks: &vec![0; t],
        temperatures: &config.temperatures,
        cuts: &buffers.cuts,
        references: &buffers.references,
        seeds: &buffers.seeds,
        flips: &buffers.flips,
        perms: &buffers.perms,
        greys: &buffers.greys,
        labels: &mut buffers.labels,
        grey_labels: &mut buffers.grey_labels,
        counts: &mut buffers.counts,
        sizes: &mut buffers.sizes,
        member_sites: &mut buffers.member_sites,
        found: &mut buffers.found,
        grey_found: &mut buffers.grey_found,
        ..Default::default()
    })?;
    buffers.tell(n, swept, &mut state.tallies[which]);
    Ok(())
}
