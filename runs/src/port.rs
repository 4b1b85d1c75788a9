//! The port, if the static library was there at build time.
use crate::steps::Steps;
use calls::Port;

/// The port, if it was linked.
pub fn linked() -> Option<Box<dyn Port>> {
    #[cfg(port)]
    return Some(Box::new(linked::Linked));
    #[cfg(not(port))]
    None
}

/// The same, for the steps of a sweep's tasks.
pub fn steps() -> Option<Box<dyn Steps>> {
    #[cfg(port)]
    return Some(Box::new(linked::Linked));
    #[cfg(not(port))]
    None
}

/// The calls of the runs as those of the crate `tsorvenk`, and its answers as those of the runs.
#[cfg(port)]
mod linked {
    use crate::steps::Steps;
    use calls::{Answer, Coding, Form, HandOver, Keeps, Label, Meter, MeterAnswer, Mode, Port};
    use calls::{CheckVendor, Pack, PackedStep, Step, Sweep, SweepAnswer, Unpack, VendorAnswer};
    use calls::{TaskChoose, TaskLabel, TaskWrite};

    pub struct Linked;

    fn mode(mode: Mode) -> tsorvenk::Mode {
        match mode {
            Mode::Houd => tsorvenk::Mode::Houd,
            Mode::Pair => tsorvenk::Mode::Pair,
            Mode::Perm => tsorvenk::Mode::Perm,
            Mode::Gperm => tsorvenk::Mode::Gperm,
            Mode::Jorg => tsorvenk::Mode::Jorg,
            Mode::Cmr => tsorvenk::Mode::Cmr,
        }
    }

    fn form(form: Form) -> tsorvenk::Form {
        match form {
            Form::Sw => tsorvenk::Form::Sw,
            Form::Wolff => tsorvenk::Form::Wolff,
            Form::Observe => tsorvenk::Form::Observe,
            Form::Grow => tsorvenk::Form::Grow,
        }
    }

    fn coding(coding: Coding) -> tsorvenk::Coding {
        match coding {
            Coding::Rows => tsorvenk::Coding::Rows,
            Coding::Numbers => tsorvenk::Coding::Numbers,
        }
    }

    fn keeps(keeps: Keeps) -> tsorvenk::Keeps {
        match keeps {
            Keeps::Nothing => tsorvenk::Keeps::Nothing,
            Keeps::Totals => tsorvenk::Keeps::Totals,
        }
    }

    /// The crate's call of the same name: what moves, packed ones and sweeps share, and the fields of its own.
    macro_rules! call_of {
        ($call:ident, $from:expr, { $($field:ident: $value:expr,)* }) => {
            tsorvenk::$call {
                mode: mode($from.mode),
                form: form($from.form),
                coding: coding($from.coding),
                keeps: keeps($from.keeps),
                n: $from.n,
                d: $from.d,
                totals: $from.totals,
                fwd: $from.fwd,
                bwd: $from.bwd,
                pins: Some($from.pins),
                couplings: $from.couplings,
                cuts: $from.cuts,
                flips: $from.flips,
                perms: $from.perms,
                greys: $from.greys,
                labels: $from.labels,
                grey_labels: $from.grey_labels,
                counts: $from.counts,
                sizes: $from.sizes,
                member_sites: $from.member_sites,
                found: $from.found,
                grey_found: $from.grey_found,
                $($field: $value,)*
            }
        };
    }

    /// 0, or a refusal's number.
    fn number(answer: Result<(), tsorvenk::Refusal>) -> u8 {
        answer.err().map_or(0, |refusal| refusal.number)
    }

    fn answer(stepped: Result<tsorvenk::Stepped, tsorvenk::Refusal>) -> Answer {
        match stepped {
            Ok(tsorvenk::Stepped::Moved) => Answer::Moved,
            Ok(tsorvenk::Stepped::Idle) => Answer::Idle,
            Ok(tsorvenk::Stepped::Held) => Answer::Held,
            Err(refusal) => Answer::Refused(refusal.number),
        }
    }

    impl Port for Linked {
        fn name(&self) -> &'static str {
            "port"
        }

        fn step(&mut self, call: Step) -> Answer {
            answer(tsorvenk::step(call_of!(Step, call, {
                s: call.s,
                team: call.team,
                owners: Some(call.owners),
                spins: call.spins,
                group: call.group,
                temperature: call.temperature,
                reference: call.reference,
                seed: call.seed,
            })))
        }

        fn sweep(&mut self, call: Sweep) -> SweepAnswer {
            match tsorvenk::sweep(call_of!(Sweep, call, {
                s: call.s,
                team: call.team,
                owners: Some(call.owners),
                spins: call.spins,
                t: call.t,
                r: call.r,
                members: call.members,
                order: call.order,
                masks: call.masks,
                temperatures: call.temperatures,
                references: call.references,
                seeds: call.seeds,
            })) {
                Ok(swept) => SweepAnswer::Swept {
                    idle: swept.idle,
                    moved: swept.moved,
                    held: swept.held,
                },
                Err(refusal) => SweepAnswer::Refused(refusal.number),
            }
        }

        fn energy(&mut self, call: Meter) -> MeterAnswer {
            match tsorvenk::energy(tsorvenk::Energy {
                n: call.n,
                d: call.d,
                s: call.s,
                team: call.team,
                owners: Some(call.owners),
                spins: call.spins,
                fwd: call.fwd,
                bwd: call.bwd,
                couplings: call.couplings,
                system: call.system,
            }) {
                Ok(energy) => MeterAnswer::Energy(energy),
                Err(refusal) => MeterAnswer::Refused(refusal.number),
            }
        }

        fn hand_over(&mut self, call: HandOver) -> u8 {
            number(tsorvenk::hand_over(tsorvenk::HandOver {
                n: call.n,
                d: call.d,
                s: call.s,
                team: call.team,
                owners: Some(call.owners),
                spins: call.spins,
                totals: call.totals,
                fwd: call.fwd,
                bwd: call.bwd,
                couplings: call.couplings,
            }))
        }

        fn label(&mut self, call: Label) -> u8 {
            number(tsorvenk::label(tsorvenk::Label {
                n: call.n,
                d: call.d,
                fwd: call.fwd,
                holds: call.holds,
                counted: call.counted,
                labels: call.labels,
                counts: call.counts,
                sizes: call.sizes,
                found: call.found,
            }))
        }

        fn packed_step(&mut self, call: PackedStep) -> Answer {
            answer(tsorvenk::packed_step(call_of!(PackedStep, call, {
                members: call.members,
                columns: call.columns,
                temperature: call.temperature,
                reference: call.reference,
                seed: call.seed,
            })))
        }

        fn pack(&mut self, call: Pack) -> u8 {
            number(tsorvenk::pack(tsorvenk::Pack {
                n: call.n,
                members: call.members,
                rows: call.rows,
                columns: call.columns,
            }))
        }

        fn unpack(&mut self, call: Unpack) -> u8 {
            number(tsorvenk::unpack(tsorvenk::Unpack {
                n: call.n,
                members: call.members,
                columns: call.columns,
                rows: call.rows,
            }))
        }

        fn check_vendor(&mut self, call: CheckVendor) -> VendorAnswer {
            match tsorvenk::check_vendor(tsorvenk::CheckVendor {
                mode: mode(call.mode),
                n: call.n,
                d: call.d,
                members: call.members,
                reference: call.reference,
                fwd: call.fwd,
                bwd: call.bwd,
                pins: Some(call.pins),
                before: call.before,
                after: call.after,
                rows: call.rows,
            }) {
                Ok(tsorvenk::Checked::Accepted) => VendorAnswer::Accepted,
                Ok(tsorvenk::Checked::Fault(component)) => VendorAnswer::No(component),
                Err(refusal) => VendorAnswer::Refused(refusal.number),
            }
        }
    }

    impl Steps for Linked {
        fn test_sweep(&mut self, call: &Sweep) -> u8 {
            number(tsorvenk::test_sweep(&tsorvenk::Sweep {
                mode: mode(call.mode),
                form: form(call.form),
                coding: coding(call.coding),
                keeps: keeps(call.keeps),
                n: call.n,
                d: call.d,
                s: call.s,
                team: call.team,
                t: call.t,
                r: call.r,
                members: call.members,
                owners: Some(call.owners),
                spins: &mut call.spins.to_vec(),
                totals: &mut call.totals.to_vec(),
                fwd: call.fwd,
                bwd: call.bwd,
                pins: Some(call.pins),
                couplings: call.couplings,
                order: call.order,
                masks: call.masks,
                temperatures: call.temperatures,
                cuts: call.cuts,
                references: call.references,
                seeds: call.seeds,
                flips: call.flips,
                perms: call.perms,
                greys: call.greys,
                labels: &mut call.labels.to_vec(),
                grey_labels: &mut call.grey_labels.to_vec(),
                counts: &mut call.counts.to_vec(),
                sizes: &mut call.sizes.to_vec(),
                member_sites: &mut call.member_sites.to_vec(),
                found: &mut call.found.to_vec(),
                grey_found: &mut call.grey_found.to_vec(),
            }))
        }

        fn label(&mut self, call: TaskLabel) -> Answer {
            answer(tsorvenk::task_label(tsorvenk::TaskLabel {
                mode: mode(call.mode),
                form: form(call.form),
                n: call.n,
                d: call.d,
                members: call.members,
                rows: call.rows,
                fwd: call.fwd,
                bwd: call.bwd,
                pins: Some(call.pins),
                couplings: call.couplings,
                temperature: call.temperature,
                cuts: call.cuts,
                reference: call.reference,
                seed: call.seed,
                flips: call.flips,
                perms: call.perms,
                greys: call.greys,
                labels: call.labels,
                grey_labels: call.grey_labels,
                counts: call.counts,
                sizes: call.sizes,
                member_sites: call.member_sites,
                found: call.found,
                grey_found: call.grey_found,
                blue: call.blue,
            }))
        }

        fn choose(&mut self, call: TaskChoose) -> u8 {
            number(tsorvenk::task_choose(tsorvenk::TaskChoose {
                mode: mode(call.mode),
                form: form(call.form),
                n: call.n,
                d: call.d,
                members: call.members,
                rows: call.rows,
                pins: Some(call.pins),
                reference: call.reference,
                seed: call.seed,
                flips: call.flips,
                perms: call.perms,
                greys: call.greys,
                labels: call.labels,
                grey_labels: call.grey_labels,
                member_sites: call.member_sites,
                blue: call.blue,
                area: call.area,
            }))
        }

        fn write(&mut self, call: TaskWrite) -> u8 {
            number(tsorvenk::task_write(tsorvenk::TaskWrite {
                mode: mode(call.mode),
                form: form(call.form),
                keeps: keeps(call.keeps),
                n: call.n,
                d: call.d,
                members: call.members,
                rows: call.rows,
                totals: call.totals,
                fwd: call.fwd,
                bwd: call.bwd,
                couplings: call.couplings,
                member_sites: call.member_sites,
                area: call.area,
            }))
        }
    }
}
