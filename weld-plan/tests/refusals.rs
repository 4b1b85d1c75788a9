//! What is wrong is told in one sentence, with the status 2, and nothing is written.
mod common;
use std::fs;
use std::path::{Path, PathBuf};

const LIST: &str = "6 2\n1 2 -5\n4 1 7\n";

fn set_up(name: &str) -> PathBuf {
    let folder = common::folder(name);
    fs::write(folder.join("panel.txt"), LIST).unwrap();
    folder
}

fn refused(folder: &Path, words: &str, said: &str) {
    let before = common::names(folder);
    let output = common::run(folder, words);
    let stderr = String::from_utf8(output.stderr).unwrap();
    assert_eq!((output.status.code(), stderr.as_str()), (Some(2), format!("weld-plan: {said}\n").as_str()), "{words}");
    assert_eq!(common::names(folder), before, "{words}: something was written");
    assert!(output.stdout.is_empty());
}

#[test]
fn lists_by_line_and_reason() {
    let folder = set_up("bad-lists");
    for (list, said) in [
        ("", "line 1: the list is empty"),
        ("7 0\n", "line 1: the list has 7 seams, and a grid of 3x2 has 6"),
        ("6 2\n1 2 5\n4 1 07\n", "line 3: \"07\" is a number with a leading zero"),
        ("6 1\n1 3 5\n", "line 2: seams 1 and 3 are no neighbours in a grid of 3x2"),
        ("6 1\n1 9 5\n", "line 2: seam 9 is not on the panel, whose seams are 1 to 6"),
        ("6 2\n1 2 5\n2 1 5\n", "line 3: seams 2 and 1 stand in line 2 already"),
        ("6 1\n1 2 -1000001\n", "line 2: the distortion \"-1000001\" is above 1000000 in size"),
        ("6 1\n1 2 5", "line 2: the last line does not end in a line feed: the list may be cut off"),
        ("6 3\n1 2 5\n", "line 1: it says that 3 lines follow, and there are 1"),
    ] {
        fs::write(folder.join("bad.txt"), list).unwrap();
        refused(&folder, "--grid 3x2 --list bad.txt", &format!("bad.txt, {said}"));
    }
    fs::write(folder.join("bad.txt"), vec![b'1'; 400_000]).unwrap();
    refused(&folder, "--grid 3x2 --list bad.txt", "bad.txt has more than 302451 bytes, which is longer than any such file");
    refused(&folder, "--grid 3x2 --list none.txt", "none.txt cannot be read: it is not there");
    refused(&folder, "--grid 3x2 --list .", ". cannot be read: it is a folder");
    refused(&folder, "--grid 3x3 --list panel.txt", "panel.txt, line 1: the list has 6 seams, and a grid of 3x3 has 9");
    // the other way round the list's pairs are no neighbours
    refused(&folder, "--grid 2x3 --list panel.txt", "panel.txt, line 3: seams 4 and 1 are no neighbours in a grid of 2x3");
}

#[test]
fn pins() {
    let folder = set_up("bad-pins");
    for (pins, said) in [
        ("1 A\n7 B\n", "line 2: seam 7 is not on the panel, whose seams are 1 to 6"),
        ("0 A\n", "line 1: seam 0 is not on the panel, whose seams are 1 to 6"),
        ("x A\n", "line 1: \"x\" is no seam's number"),
        ("# none\n1 C\n", "line 2: \"C\" is no face: a seam is welded from A or from B"),
        ("1\n", "line 1: a pin is a seam and its face, like 17 A"),
        ("1 A\n2 A\n1 A\n", "line 3: seam 1 is pinned in a line before"),
    ] {
        fs::write(folder.join("pins.txt"), pins).unwrap();
        refused(&folder, "--grid 3x2 --list panel.txt --pins pins.txt", &format!("pins.txt, {said}"));
    }
    fs::write(folder.join("pins.txt"), [0xff]).unwrap();
    refused(&folder, "--grid 3x2 --list panel.txt --pins pins.txt", "pins.txt is no text");
}

#[test]
fn flags() {
    let folder = set_up("bad-flags");
    let day = |more: &str| format!("--grid 3x2 --list panel.txt {more}");
    for (words, said) in [
        (String::new(), "--grid is missing; --help has all flags"),
        ("--grid 3x2".into(), "--list is missing; --help has all flags"),
        ("--grid 3 --list panel.txt".into(), "--grid 3: a grid is two numbers with an x between them, like 32x32"),
        ("--grid 0x4 --list panel.txt".into(), "--grid 0x4: a grid has at least one row and one column"),
        ("--grid 65x64 --list panel.txt".into(), "--grid 65x64: a panel has at most 4096 seams"),
        (day("--grid 3x2"), "--grid is given twice"),
        (day("--sweep 5"), "there is no flag --sweep; --help has all of them"),
        (day("now"), "\"now\" is no flag; --help has all of them"),
        (day("--sweeps"), "--sweeps needs a value behind it"),
        (day("--sweeps many"), "--sweeps many: this is no whole number up to 1000000000"),
        (day("--minutes -1"), "--minutes -1: this is no number from 0 to 1000000"),
        (day("--seed 0,0,0,0"), "--seed 0,0,0,0: not all four words may be 0"),
        (day("--seed 1,2,3"), "--seed 1,2,3: a seed is four whole numbers below 2^64 with commas between, like 1,2,3,4"),
        (day("--replicas 0"), "--replicas 0: this is no number from 1 to 64"),
        (day("--replicas 5"), "16 temperatures of 5 replicas are 80 systems, and there may be 64"),
        (day("--modes wolf"), "--modes wolf: \"wolf\" is none of houd, pair, perm, gperm, jorg and cmr"),
        (day("--modes cmr:sw:4"), "--modes cmr:sw:4: cmr moves groups of two alone"),
        (day("--modes perm:sw:8"), "--modes perm:sw:8: groups of 8 need as many replicas at a temperature, and --replicas says 4"),
        (day("--temperatures 3,2"), "--temperatures 3,2: temperatures rise from the coldest to the hottest"),
        (day("--temperatures 0.0001,2"), "--temperatures 0.0001,2: a temperature is from 1/1024 to 1048576"),
        (
            day("--temperatures warm"),
            "--temperatures warm: temperatures are a count, like 16, a list, like 2,3.5,6, or a ladder LOW:HIGH:COUNT, like 2:40:16",
        ),
    ] {
        refused(&folder, &words, said);
    }
}

#[test]
fn folders_that_cannot_be_written() {
    let folder = set_up("bad-folders");
    refused(
        &folder,
        "--grid 3x2 --list panel.txt --out panel.txt",
        "the folder panel.txt cannot be made: a file is in the way of a folder",
    );
    refused(
        &folder,
        "--grid 3x2 --list panel.txt --out panel.txt/x",
        "the folder panel.txt/x cannot be made: a file is in the way of a folder",
    );
}

/// A limit on the size of files stands in for a full disk: the write fails in its middle.
#[test]
fn a_full_disk_leaves_the_old_files() {
    let folder = common::folder("full");
    fs::write(folder.join("panel.txt"), common::list("16x16", [1, 2, 3, 4], 40)).unwrap();
    let day = "--grid 16x16 --list panel.txt --quiet --temperatures 4 --replicas 2";
    common::good(&folder, &format!("{day} --sweeps 3 --out plan"));
    let before = common::files(&folder.join("plan"));
    let limited = |blocks: u32, flags: &str| {
        let line = format!("ulimit -f {blocks}; exec {} {day} {flags}", env!("CARGO_BIN_EXE_weld-plan"));
        std::process::Command::new("sh").args(["-c", &line]).current_dir(&folder).output().unwrap()
    };
    // room for the checkpoint and not for the pictures, and then for neither
    for (blocks, flags, what) in
        [(16, "--sweeps 4 --out plan --resume", "plan/plan.svg"), (1, "--sweeps 4 --out plan --resume", "plan/checkpoint")]
    {
        let output = limited(blocks, flags);
        let said = format!("weld-plan: {what} cannot be written: the file would be larger than this user may write\n");
        assert_eq!((output.status.code(), String::from_utf8(output.stderr).unwrap()), (Some(2), said));
        assert_eq!(common::files(&folder.join("plan")), before);
        assert_eq!(common::names(&folder.join("plan")), ["checkpoint", "day.json", "day.svg", "plan.svg", "plan.txt"]);
    }
    // nor is a folder left behind that has nothing in it
    assert_eq!(limited(1, "--sweeps 4 --out other").status.code(), Some(2));
    assert!(!folder.join("other").exists());
    // with room again the day goes on
    common::good(&folder, &format!("{day} --sweeps 4 --out plan --resume"));
    assert_ne!(common::files(&folder.join("plan")), before);
}

#[test]
fn help_is_no_refusal() {
    let folder = set_up("help");
    for words in ["--help", "-h", "--grid 3x2 --help"] {
        let output = common::run(&folder, words);
        assert!(output.status.success() && output.stderr.is_empty());
        let text = String::from_utf8(output.stdout).unwrap();
        let flags = "--grid --list --seed --out --sweeps --minutes --temperatures --replicas --modes --pins --resume --quiet --checkpoint";
        for flag in flags.split(' ') {
            assert!(text.contains(flag), "{flag}");
        }
    }
    assert_eq!(common::run(&folder, "--version").stdout, b"weld-plan 0.1.0\n");
    assert_eq!(common::names(&folder), ["panel.txt"]);
}
