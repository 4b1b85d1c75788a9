//! The C header: its calls with named fields over stand-ins of the exported functions, its words beside those of the Rust
//! crate, and what compilers say of it with every warning an error. A compiler that is missing is left out.
use std::path::{Path, PathBuf};
use std::process::Command;

const WARNINGS: [&str; 4] = ["-Wall", "-Wextra", "-Wpedantic", "-Werror"];

fn top() -> PathBuf {
    Path::new(env!("CARGO_MANIFEST_DIR")).join("..")
}

/// Runs a compiler on a file of tests/header; false where there is no such compiler.
fn compiles(compiler: &str, standard: &str, file: &str, more: &[&str]) -> bool {
    let mut command = Command::new(compiler);
    command.arg(standard).args(WARNINGS).args(more);
    command.arg("-I").arg(top().join("include"));
    command.arg(top().join("runs/tests/header").join(file));
    let Ok(ended) = command.output() else {
        eprintln!("left out: {file}, for want of {compiler}");
        return false;
    };
    assert!(
        ended.status.success(),
        "{}",
        String::from_utf8_lossy(&ended.stderr)
    );
    true
}

#[test]
fn named_fields_arrive_and_words_are_those_of_the_crate() {
    let program = Path::new(env!("CARGO_TARGET_TMPDIR")).join("named");
    let to = ["-o", program.to_str().unwrap()];
    if !compiles("cc", "-std=c99", "named.c", &to) {
        return;
    }
    let ended = Command::new(&program).output().unwrap();
    let text = String::from_utf8(ended.stdout).unwrap();
    assert!(ended.status.success(), "{text}");
    let (frames, edges) = (tsorvenk::FRAMES_ROOM, tsorvenk::EDGES_ROOM);
    let mut expected = format!("room {frames} and {edges}\n");
    for number in -1..=256 {
        // what is no byte comes back from no call, like 255
        let words = tsorvenk::refusal_words(u8::try_from(number).unwrap_or(255));
        expected += &format!("{number} {words}\n");
    }
    assert_eq!(text, expected);
}

#[test]
fn named_fields_of_a_tasks_steps_arrive() {
    let program = Path::new(env!("CARGO_TARGET_TMPDIR")).join("steps");
    let to = ["-o", program.to_str().unwrap()];
    if compiles("cc", "-std=c99", "steps.c", &to) {
        let ended = Command::new(&program).output().unwrap();
        let text = String::from_utf8_lossy(&ended.stdout);
        assert!(ended.status.success(), "{text}");
    }
}

#[test]
fn the_header_is_cpp_too() {
    for standard in ["-std=c++98", "-std=c++20"] {
        compiles("c++", standard, "plain.cc", &["-fsyntax-only"]);
    }
}
