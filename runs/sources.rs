// Part of both build scripts: takes the published sources, which this repository does not hold, into OUT_DIR.
use std::path::{Path, PathBuf};
use std::{env, fs};

const FILES: [(&str, &str); 3] = [
    ("src--spin-sim--src--clusters--overlap.rs.txt", "overlap.rs"),
    ("src--spin-sim--src--clusters--utils.rs.txt", "utils.rs"),
    ("src--spin-sim--src--config.rs.txt", "config.rs"),
];

/// An exact text of a file and what replaces it. The text must stand there exactly once.
pub struct Patch {
    pub file: &'static str,
    pub old: &'static str,
    pub new: &'static str,
}

/// TSORVENK_RUST_SRC, or `../shared/docs/src`; a relative path starts at the top of the repository.
fn folder() -> PathBuf {
    let top = Path::new(&env::var("CARGO_MANIFEST_DIR").unwrap()).join("../..");
    let given = env::var("TSORVENK_RUST_SRC").unwrap_or_default();
    top.join(if given.is_empty() {
        "../shared/docs/src"
    } else {
        &given
    })
}

pub fn take(patches: &[Patch]) {
    println!("cargo::rustc-check-cfg=cfg(published)");
    println!("cargo::rustc-check-cfg=cfg(feature, values(\"profile\"))");
    println!("cargo::rerun-if-env-changed=TSORVENK_RUST_SRC");
    let from = folder();
    println!("cargo::rerun-if-changed={}", from.display());
    if !FILES.iter().all(|(source, _)| from.join(source).is_file()) {
        return;
    }
    let to = PathBuf::from(env::var("OUT_DIR").unwrap());
    for (source, name) in FILES {
        let mut text = fs::read_to_string(from.join(source)).unwrap();
        for patch in patches.iter().filter(|p| p.file == name) {
            let places = text.matches(patch.old).count();
            assert_eq!(places, 1, "{source}: {:?} stands {places} times", patch.old);
            text = text.replace(patch.old, patch.new);
        }
        fs::write(to.join(name), text).unwrap();
    }
    println!("cargo::rustc-cfg=published");
}
