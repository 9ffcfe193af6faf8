//! Links the static library that `rt lib` leaves in crates/bench_calls/out.

use std::path::Path;

fn main() {
    let out = Path::new(env!("CARGO_MANIFEST_DIR")).join("../crates/bench_calls/out");
    println!("cargo:rustc-link-search=native={}", out.display());
    println!("cargo:rustc-link-lib=static=bench_calls");
    println!("cargo:rerun-if-changed={}", out.join("libbench_calls.a").display());
}
