//! Proves and builds the archive, which is linked.

#[path = "build/rt.rs"]
mod rt;

use std::{env, fs};

/// The only processor that the archive is built for, as cargo names it.
const ARCHITECTURE: &str = "x86_64";

const ARCHIVE: &str = "libgrainlantern_c.a";

fn main() {
    let target = env::var("CARGO_CFG_TARGET_ARCH").unwrap();
    if target != ARCHITECTURE {
        rt::fail(&format!(
            "the proved code is built for {ARCHITECTURE} only, and this build is for {target}"
        ));
    }
    let built = format!("crates/grainlantern_c/out/{ARCHIVE}");
    rt::watch(&built);
    rt::rt("lib", "grainlantern_c");
    // a copy is linked, since another run of `rt` may write its own anew at any time
    let built = rt::root().join(built);
    let out = env::var("OUT_DIR").unwrap();
    if let Err(why) = fs::copy(&built, format!("{out}/{ARCHIVE}")) {
        rt::fail(&format!("{} could not be copied: {why}", built.display()));
    }
    println!("cargo:rustc-link-search=native={out}");
    println!("cargo:rustc-link-lib=static=grainlantern_c");
}
