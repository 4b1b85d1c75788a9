//! What the tests share: lists from seeds, folders, and the program.
#![allow(dead_code)]
use std::fs;
use std::path::{Path, PathBuf};
use std::process::{Command, Output};
use weld_plan::grid::Grid;
use weld_plan::sample;

/// The list of a panel whose couplings have sizes from 1 to `largest` and signs by coins.
pub fn list(grid: &str, seed: [u64; 4], largest: u32) -> String {
    sample::list(Grid::parse(grid).unwrap(), seed, largest).unwrap()
}

/// An empty folder of this name.
pub fn folder(name: &str) -> PathBuf {
    let path = Path::new(env!("CARGO_TARGET_TMPDIR")).join(name);
    let _ = fs::remove_dir_all(&path);
    fs::create_dir_all(&path).unwrap();
    path
}

/// The program with these words, blanks between them, run in a folder.
pub fn program(folder: &Path, words: &str) -> Command {
    let mut command = Command::new(env!("CARGO_BIN_EXE_weld-plan"));
    command.current_dir(folder).args(words.split_whitespace());
    command
}

pub fn run(folder: &Path, words: &str) -> Output {
    program(folder, words).output().unwrap()
}

/// The program with these words; it must do what it is asked.
pub fn good(folder: &Path, words: &str) {
    let output = run(folder, words);
    assert!(output.status.success(), "{words}: {}", String::from_utf8_lossy(&output.stderr));
}

pub const FILES: [&str; 4] = ["plan.txt", "plan.svg", "day.svg", "day.json"];

/// The four files that leave at five.
pub fn files(out: &Path) -> [String; 4] {
    FILES.map(|name| fs::read_to_string(out.join(name)).unwrap_or_else(|error| panic!("{}/{name}: {error}", out.display())))
}

/// The names of all that a folder has.
pub fn names(folder: &Path) -> Vec<String> {
    let mut names: Vec<String> = fs::read_dir(folder).unwrap().map(|entry| entry.unwrap().file_name().into_string().unwrap()).collect();
    names.sort();
    names
}
