//! Proves and builds the program, which the tests run.

#[path = "../grainlantern/build/rt.rs"]
mod rt;

fn main() {
    rt::watch("crates/grainlantern/out/grainlantern");
    // it builds the program and runs it, without a filter
    rt::rt("run", "grainlantern");
}
