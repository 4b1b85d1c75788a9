//! The port is run where the crate `tsorvenk` found the static library.
use std::env;

fn main() {
    println!("cargo::rustc-check-cfg=cfg(port)");
    println!("cargo::rerun-if-changed=build.rs");
    if env::var("DEP_TSORVENK_LINKED").is_ok() {
        println!("cargo::rustc-cfg=port");
    }
}
