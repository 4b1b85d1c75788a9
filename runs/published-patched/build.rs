#[path = "../sources.rs"]
mod sources;

// overlap.rs and config.rs stay as published. BondSampler alone changes, in one line: the published comparison is of a
// 62-bit draw with a probability in f64, and nothing it calls is told the strength, so no stand-in could make the
// paper's comparison of one f32 product with the bond's cut.
fn main() {
    println!("cargo::rerun-if-changed=../sources.rs");
    sources::take(&[sources::Patch {
        file: "utils.rs",
        old: "        uniform_draw(rng) < threshold\n",
        new:
            "        let _ = threshold;\n        uniform_draw(rng) < (-self.neg_rate) as f32 * x\n",
    }]);
}
