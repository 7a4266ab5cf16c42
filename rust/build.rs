//! Links libpumxaqert.a, which `rt lib` writes in `crates/pumxaqert`, from there or from the folder in PUMXAQERT_LIB.

use std::env;
use std::path::PathBuf;

fn main() {
    println!("cargo:rerun-if-env-changed=PUMXAQERT_LIB");
    let here = PathBuf::from(env::var("CARGO_MANIFEST_DIR").expect("cargo says where"));
    let folder = match env::var("PUMXAQERT_LIB") {
        Ok(folder) => PathBuf::from(folder),
        Err(_) => here.join("../crates/pumxaqert/out"),
    };
    let library = folder.join("libpumxaqert.a");
    println!("cargo:rerun-if-changed={}", library.display());
    if !library.is_file() {
        println!("cargo:warning={} is missing: cd crates/pumxaqert && rt lib", library.display());
    }
    println!("cargo:rustc-link-search=native={}", folder.display());
    println!("cargo:rustc-link-lib=static=pumxaqert");
}
