//! What a caller who takes a sweep's tasks apart may rely on: in every order of their steps, on one thread or several, and with another
//! team's mixed in, they end in the bytes of the one call.
mod sweeps;

use sweeps::*;
use tsorvenk::*;

/// A task with any number of its steps made.
enum Any<'a> {
    Task(Task<'a>),
    Labelled(Labelled<'a>),
    Chosen(Chosen<'a>),
    Written(Written<'a>),
}

impl<'a> Any<'a> {
    fn next(self) -> Any<'a> {
        match self {
            Any::Task(task) => Any::Labelled(task.label().unwrap()),
            Any::Labelled(task) => Any::Chosen(task.choose().unwrap()),
            Any::Chosen(task) => Any::Written(task.write().unwrap()),
            Any::Written(task) => Any::Written(task),
        }
    }

    fn written(self) -> Option<Written<'a>> {
        match self {
            Any::Written(task) => Some(task),
            _ => None,
        }
    }
}

/// All steps of all tasks in a shuffled order: each task stands in it three times.
fn shuffled<'a>(drawn: &mut Drawn, tasks: Vec<Task<'a>>) -> Vec<Any<'a>> {
    let mut order: Vec<usize> = (0..3 * tasks.len()).map(|at| at / 3).collect();
    drawn.shuffle(&mut order);
    let mut all: Vec<Option<Any>> = tasks.into_iter().map(|t| Some(Any::Task(t))).collect();
    for at in order {
        all[at] = all[at].take().map(Any::next);
    }
    all.into_iter().flatten().collect()
}

/// The tasks on so many threads, dealt out in a shuffled order.
fn threaded<'a>(drawn: &mut Drawn, threads: usize, mut tasks: Vec<Task<'a>>) -> Vec<Written<'a>> {
    drawn.shuffle(&mut tasks);
    let mut hands: Vec<Vec<Task>> = (0..threads).map(|_| Vec::new()).collect();
    for (at, task) in tasks.into_iter().enumerate() {
        hands[at % threads].push(task);
    }
    let run = |hand: Vec<Task<'a>>| -> Vec<Written<'a>> {
        let all = hand.into_iter();
        let labelled: Vec<_> = all.map(|task| task.label().unwrap()).collect();
        let rest = labelled.into_iter();
        rest.map(|task| task.choose().unwrap().write().unwrap())
            .collect()
    };
    std::thread::scope(|scope| {
        let running: Vec<_> = hands
            .into_iter()
            .map(|hand| scope.spawn(move || run(hand)))
            .collect();
        let ended = running.into_iter().map(|thread| thread.join().unwrap());
        ended.flatten().collect()
    })
}

/// The tasks by themselves: shuffled on no thread of their own, or on so many.
fn split(drawn: &mut Drawn, threads: usize, panel: &Panel, given: &Given) -> Ended {
    let (mut after, mut lent) = (panel.clone(), lent(given));
    let accepted = match call(panel, given, &mut lent).test(&panel.spins, &panel.totals) {
        Ok(accepted) => accepted,
        Err(refusal) => return (Err(refusal), after, lent),
    };
    let (tasks, merging) = accepted.split();
    let done = match threads {
        0 => shuffled(drawn, tasks)
            .into_iter()
            .filter_map(Any::written)
            .collect(),
        _ => threaded(drawn, threads, tasks),
    };
    let answer = merging
        .merge(done, &mut after.spins, &mut after.totals)
        .unwrap();
    (Ok(answer), after, lent)
}

fn members_of(mode: Mode, form: Form) -> &'static [usize] {
    match (mode, form) {
        (Mode::Cmr, _) => &[2],
        (Mode::Houd, Form::Observe) => &[2, 3, 8],
        (Mode::Houd, _) => &[2],
        _ => &[2, 3, 8],
    }
}

/// Every mode, form and group's size, with each of these pins.
fn everything(mut each: impl FnMut(&mut Drawn, Panel, Given)) {
    let mut drawn = Drawn(0x9e37_79b9_7f4a_7c15);
    for mode in Mode::ALL {
        for form in Form::ALL {
            for &members in members_of(mode, form) {
                for pinned in [None, Some(0), Some(1), Some(6)] {
                    let own = TEMPERATURES * replicas(members);
                    let mut panel = Panel::drawn(&mut drawn, [own, 64 - own], pinned);
                    let given = given(&mut drawn, &panel, mode, form, members);
                    panel.ready(&given);
                    each(&mut drawn, panel, given);
                }
            }
        }
    }
}

#[test]
fn every_order_ends_in_the_bytes_of_the_sweep() {
    let (mut idle, mut moved, mut held) = (0, 0, 0);
    everything(|drawn, panel, mut given| {
        for keeps in Keeps::ALL {
            given.keeps = keeps;
            let expected = swept(&panel, &given);
            let answer = expected.0.unwrap();
            idle += answer.idle;
            moved += answer.moved;
            held += answer.held;
            for threads in [0, 0, 0, 1, 2, 4] {
                let (mode, form) = (given.mode.name(), given.form.name());
                let ended = split(drawn, threads, &panel, &given);
                assert!(ended == expected, "{mode} {form} on {threads}");
            }
        }
    });
    // 41 kinds of groups of two or three with four unmasked tasks, 17 of eight with two, each with four pins and both kinds of keeping
    assert_eq!(idle + moved + held, 8 * (41 * 4 + 17 * 2));
    assert!(idle > 100 && moved > 500 && held > 100);
}

#[test]
fn numbers_are_spelt_out() {
    let mut drawn = Drawn(77);
    for (mode, form) in [
        (Mode::Perm, Form::Sw),
        (Mode::Perm, Form::Wolff),
        (Mode::Gperm, Form::Grow),
        (Mode::Gperm, Form::Observe),
        (Mode::Pair, Form::Sw),
    ] {
        let mut panel = Panel::drawn(&mut drawn, [30, 4], None);
        let mut given = given(&mut drawn, &panel, mode, form, 5);
        panel.ready(&given);
        let by_rows = swept(&panel, &given);
        let numbers = given.perms.chunks(5).map(|row| number_of(row).unwrap());
        (given.perms, given.coding) = (numbers.collect(), Coding::Numbers);
        assert_eq!(swept(&panel, &given), by_rows);
        assert_eq!(split(&mut drawn, 0, &panel, &given), by_rows);
        assert_eq!(split(&mut drawn, 2, &panel, &given), by_rows);
    }
}

/// Both teams' tasks in one shuffled list, against their sweeps one after the other.
#[test]
fn two_teams_mix() {
    let mut drawn = Drawn(4711);
    let kinds = [
        (Mode::Pair, Form::Sw, 2, Mode::Cmr, Form::Grow, 2),
        (Mode::Gperm, Form::Wolff, 3, Mode::Perm, Form::Sw, 3),
        (Mode::Jorg, Form::Grow, 8, Mode::Houd, Form::Observe, 3),
        (Mode::Cmr, Form::Sw, 2, Mode::Cmr, Form::Wolff, 2),
    ];
    for (mode, form, members, other_mode, other_form, other_members) in kinds {
        for _ in 0..20 {
            let each = [members, other_members].map(|of| TEMPERATURES * replicas(of));
            let mut panel = Panel::drawn(&mut drawn, each, Some(6));
            let one = given(&mut drawn, &panel, mode, form, members);
            panel
                .owners
                .iter_mut()
                .for_each(|owner| *owner = 1 - *owner);
            let mut other = given(&mut drawn, &panel, other_mode, other_form, other_members);
            panel
                .owners
                .iter_mut()
                .for_each(|owner| *owner = 1 - *owner);
            other.team = 1;
            panel.ready(&one);
            panel.ready(&other);
            let (first, between, one_lent) = swept(&panel, &one);
            let (second, expected, other_lent) = swept(&between, &other);

            let (mut after, mut lents) = (panel.clone(), [lent(&one), lent(&other)]);
            let [of_one, of_other] = &mut lents;
            let test = |given, lent| call(&panel, given, lent).test(&panel.spins, &panel.totals);
            let (mut tasks, merging) = test(&one, of_one).unwrap().split();
            let (more, other_merging) = test(&other, of_other).unwrap().split();
            let count = tasks.len();
            tasks.extend(more);
            let mut done: Vec<Written> = shuffled(&mut drawn, tasks)
                .into_iter()
                .filter_map(Any::written)
                .collect();
            let rest = done.split_off(count);
            let (spins, totals) = (&mut after.spins, &mut after.totals);
            let answer = other_merging.merge(rest, spins, totals).unwrap();
            assert_eq!(Ok(answer), second);
            let answer = merging.merge(done, spins, totals).unwrap();
            assert_eq!((Ok(answer), &after), (first, &expected));
            assert_eq!(lents, [one_lent, other_lent]);
        }
    }
}

#[test]
fn what_is_no_number_is_refused() {
    let mut drawn = Drawn(78);
    for (form, number) in [(Form::Sw, 120), (Form::Wolff, 0), (Form::Grow, 255)] {
        let mut panel = Panel::drawn(&mut drawn, [30, 4], None);
        let mut given = given(&mut drawn, &panel, Mode::Perm, form, 5);
        panel.ready(&given);
        let numbers = given.perms.chunks(5).map(|row| number_of(row).unwrap());
        (given.perms, given.coding) = (numbers.collect(), Coding::Numbers);
        for (members, at, expected) in [(5, 0, 9), (4, 0, 1), (5, given.perms.len(), 2)] {
            let mut other = given.clone();
            other.members = members;
            match other.perms.get_mut(at) {
                Some(of) => *of = number,
                None => other.perms.push(1),
            }
            let refused = swept(&panel, &other);
            assert_eq!(refused.0, Err(Refusal { number: expected }));
            assert_eq!(split(&mut drawn, 0, &panel, &other), refused);
        }
    }
}

/// A team's view tests its own sweep, and what is not all of one sweep's tasks is not merged.
#[test]
fn tasks_are_merged_where_all_are_there() {
    let mut drawn = Drawn(5);
    let mut panel = Panel::drawn(&mut drawn, [15, 3], None);
    let given = given(&mut drawn, &panel, Mode::Pair, Form::Sw, 2);
    panel.ready(&given);
    let (answer, expected, expected_lent) = swept(&panel, &given);
    let team = Teams::new(&panel.owners).unwrap().team::<0>();
    let own = |&system: &u32| team.system(system as usize).unwrap();
    let order: Vec<_> = given.order.iter().map(own).collect();
    let mut lents = [(); 5].map(|()| lent(&given));
    let mut sweeps = lents.iter_mut().map(|lent| {
        let call = Sweep {
            s: 0,
            owners: None,
            order: &[],
            ..call(&panel, &given, lent)
        };
        let tested = team.test(&order, call, &panel.spins, &panel.totals);
        let (tasks, merging) = tested.unwrap().split();
        (threaded(&mut drawn, 2, tasks), merging)
    });
    let mut after = panel.clone();
    let (spins, totals) = (&mut after.spins, &mut after.totals);
    let ((mut one, merging), (mut two, other)) = (sweeps.next().unwrap(), sweeps.next().unwrap());
    std::mem::swap(&mut one[0], &mut two[0]);
    assert_eq!(merging.merge(one, spins, totals), Err(NotMerged::Foreign));
    assert_eq!(other.merge(two, spins, totals), Err(NotMerged::Foreign));
    let (mut few, merging) = sweeps.next().unwrap();
    few.pop();
    assert_eq!(merging.merge(few, spins, totals), Err(NotMerged::Missing));
    let (all, merging) = sweeps.next().unwrap();
    let short = merging.merge(all, spins, &mut totals[1..]);
    assert_eq!(short, Err(NotMerged::Length));
    assert_eq!(after, panel, "what is not merged writes nothing");
    let (all, merging) = sweeps.next().unwrap();
    let (spins, totals) = (&mut after.spins, &mut after.totals);
    assert_eq!(Ok(merging.merge(all, spins, totals).unwrap()), answer);
    drop(sweeps);
    assert_eq!((after, &lents[4]), (expected, &expected_lent));
}
