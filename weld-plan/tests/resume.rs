//! A day that was broken goes on to the same bytes as one that was not.
mod common;
use std::fs;
use std::path::Path;
use std::process::Stdio;
use std::time::{Duration, Instant};

const DAY: &str = "--grid 12x9 --list panel.txt --seed 7,8,9,10 --modes pair,cmr:grow --temperatures 6 --replicas 4";

fn set_up(name: &str, sweeps: u32) -> std::path::PathBuf {
    let folder = common::folder(name);
    fs::write(folder.join("panel.txt"), common::list("12x9", [3, 1, 4, 1], 40)).unwrap();
    common::good(&folder, &format!("{DAY} --quiet --sweeps {sweeps} --out whole"));
    folder
}

fn same(folder: &Path) {
    let (whole, broken) = (common::files(&folder.join("whole")), common::files(&folder.join("broken")));
    for ((name, one), other) in common::FILES.iter().zip(whole).zip(broken) {
        assert!(one == other, "{name} differs");
    }
    let all = ["checkpoint", "day.json", "day.svg", "plan.svg", "plan.txt"];
    assert_eq!(common::names(&folder.join("broken")), all);
}

#[test]
fn in_parts() {
    let folder = set_up("parts", 900);
    common::good(&folder, &format!("{DAY} --quiet --sweeps 0 --out broken"));
    for sweeps in [1, 17, 18, 450, 900, 900] {
        common::good(&folder, &format!("{DAY} --quiet --sweeps {sweeps} --out broken --resume"));
    }
    same(&folder);
}

/// Starts a day that is too long, waits for its checkpoint to have come some way, sends the signal, and waits for the end.
fn stop(folder: &Path, words: &str, signal: &str) -> std::process::ExitStatus {
    let mut child = common::program(folder, words).stderr(Stdio::null()).spawn().unwrap();
    let began = Instant::now();
    let far = || {
        let text = fs::read_to_string(folder.join("broken/checkpoint")).unwrap_or_default();
        let sweep = text.lines().find_map(|line| line.strip_prefix("sweep ")).map_or(0, |sweep| sweep.parse().unwrap());
        sweep > 20
    };
    while !far() {
        assert!(began.elapsed() < Duration::from_secs(60), "no checkpoint came");
        std::thread::sleep(Duration::from_millis(5));
    }
    let killed = std::process::Command::new("kill").arg(format!("-{signal}")).arg(child.id().to_string()).status().unwrap();
    assert!(killed.success());
    child.wait().unwrap()
}

#[test]
fn after_ctrl_c() {
    let folder = set_up("ctrl-c", 1500);
    let status = stop(&folder, &format!("{DAY} --sweeps 1500 --checkpoint 0 --out broken"), "INT");
    assert_eq!(status.code(), Some(130));
    // the plan so far is there
    assert!(common::files(&folder.join("broken"))[0].starts_with("weld plan\n"));
    common::good(&folder, &format!("{DAY} --sweeps 1500 --out broken --resume --quiet"));
    same(&folder);
}

#[test]
fn after_the_machine_was_lost() {
    let folder = set_up("lost", 1500);
    let status = stop(&folder, &format!("{DAY} --sweeps 1500 --checkpoint 0 --out broken"), "KILL");
    assert_eq!(status.code(), None);
    // a write that was broken off is no harm
    fs::write(folder.join("broken/checkpoint.new"), "weld-plan check").unwrap();
    common::good(&folder, &format!("{DAY} --sweeps 1500 --out broken --resume"));
    same(&folder);
}

#[test]
fn what_is_shown_and_when_it_is_saved_changes_nothing() {
    let folder = set_up("shown", 100);
    common::good(&folder, &format!("{DAY} --sweeps 100 --minutes 1000 --checkpoint 0 --out broken"));
    same(&folder);
}

#[test]
fn another_day_is_refused() {
    let folder = set_up("another", 10);
    let refused = |words: &str, said: &str| {
        let before = fs::read(folder.join("whole/checkpoint")).unwrap();
        let output = common::run(&folder, words);
        let stderr = String::from_utf8(output.stderr).unwrap();
        assert_eq!((output.status.code(), stderr.as_str()), (Some(2), format!("weld-plan: {said}\n").as_str()));
        assert_eq!(fs::read(folder.join("whole/checkpoint")).unwrap(), before);
    };
    refused(
        &format!("{} --sweeps 20 --out whole --resume", DAY.replace("7,8,9,10", "7,8,9,11")),
        "whole/checkpoint is of another day: seed was 7,8,9,10 there, and is 7,8,9,11 here",
    );
    refused(&format!("{DAY} --sweeps 5 --out whole --resume"), "--sweeps 5: the checkpoint in whole is at sweep 10 already");
    refused(&format!("{DAY} --sweeps 5 --out nowhere --resume"), "nowhere/checkpoint cannot be read: it is not there");
    let text = fs::read_to_string(folder.join("whole/checkpoint")).unwrap();
    let damaged = "whole/checkpoint is damaged or no checkpoint of this program; without --resume a new day is begun in an empty folder";
    for bad in
        [text.replacen("spins +", "spins -", 1), text.replacen("sweep 10", "sweep 11", 1), text[..text.len() - 2].into(), String::new()]
    {
        assert_ne!(bad, text);
        fs::write(folder.join("whole/checkpoint"), bad).unwrap();
        refused(&format!("{DAY} --sweeps 20 --out whole --resume"), damaged);
    }
    // a day that was broken off is not written over
    let unfinished = {
        let (front, _) = text.rsplit_once("sha256 ").unwrap();
        let front = front.replacen("ended 1", "ended 0", 1);
        format!("{front}sha256 {}\n", weld_plan::sha256::hex(front.as_bytes()))
    };
    fs::write(folder.join("whole/checkpoint"), unfinished).unwrap();
    refused(
        &format!("{DAY} --sweeps 20 --out whole"),
        "whole has the checkpoint of a day that was broken off: go on with --resume, or name another --out, or delete whole/checkpoint",
    );
}
