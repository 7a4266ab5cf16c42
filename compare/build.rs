//! The benchmark alone is linked with libseen_c.a, which `rt lib` writes in `crates/seen_c`, or which stands beside libpumxaqert.a
//! in the folder in PUMXAQERT_LIB.

use std::env;
use std::path::PathBuf;

fn main() {
    println!("cargo:rerun-if-env-changed=PUMXAQERT_LIB");
    let here = PathBuf::from(env::var("CARGO_MANIFEST_DIR").expect("cargo says where"));
    let folder = env::var("PUMXAQERT_LIB").map_or(here.join("../crates/seen_c/out"), PathBuf::from);
    let library = folder.join("libseen_c.a");
    println!("cargo:rerun-if-changed={}", library.display());
    println!("cargo:rustc-link-arg-bin=bench={}", library.display());
}
