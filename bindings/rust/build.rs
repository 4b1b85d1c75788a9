//! Links the static library where it is: TSORVENK_LIB, from the repository's top, or where `build-library` leaves it.
//! Crates that depend on this one read DEP_TSORVENK_LINKED in their build scripts.
use std::env;
use std::path::Path;

fn main() {
    println!("cargo::rustc-check-cfg=cfg(linked)");
    println!("cargo::rerun-if-env-changed=TSORVENK_LIB");
    let top = Path::new(&env::var("CARGO_MANIFEST_DIR").unwrap()).join("../..");
    let given = env::var("TSORVENK_LIB").unwrap_or_default();
    let library = top.join(if !given.is_empty() {
        &given
    } else {
        "target/staticlib/libtsorvenk.a"
    });
    println!("cargo::rerun-if-changed={}", library.display());
    if library.is_file() {
        let folder = library.parent().unwrap();
        println!("cargo::rustc-link-search=native={}", folder.display());
        println!("cargo::rustc-link-lib=static=tsorvenk");
        println!("cargo::rustc-cfg=linked");
        println!("cargo::metadata=linked=1");
    } else if env::var("CARGO_FEATURE_OPTIONAL_LIBRARY").is_err() {
        println!(
            "cargo::error=there is no {}: run ./build-library at the top of the repository, or set TSORVENK_LIB to libtsorvenk.a",
            library.display()
        );
    }
}
