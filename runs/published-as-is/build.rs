#[path = "../sources.rs"]
mod sources;

// As published, without a patch.
fn main() {
    println!("cargo::rerun-if-changed=../sources.rs");
    sources::take(&[]);
}
