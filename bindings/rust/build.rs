// Links the static library that `rt lib` leaves in crates/card_c/out, or the one in the folder that TINGERBIL_LIB names.
use std::env;
use std::path::PathBuf;

fn main() {
    let here = PathBuf::from(env::var("CARGO_MANIFEST_DIR").unwrap());
    let folder = env::var("TINGERBIL_LIB").map_or(here.join("../../crates/card_c/out"), PathBuf::from);
    println!("cargo:rerun-if-env-changed=TINGERBIL_LIB");
    println!("cargo:rerun-if-changed={}", folder.join("libcard_c.a").display());
    println!("cargo:rustc-link-search=native={}", folder.display());
    println!("cargo:rustc-link-lib=static=card_c");
}
