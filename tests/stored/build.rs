//! Tells the compiler where the static library lies: in MIDVOKT_LIB_DIR.

use std::env;

const FOLDER: &str = "MIDVOKT_LIB_DIR";

fn main() {
    println!("cargo:rerun-if-changed=build.rs");
    println!("cargo:rerun-if-env-changed={FOLDER}");
    let folder =
        env::var(FOLDER).unwrap_or_else(|_| panic!("{FOLDER} is not set; use tests/stored/check"));
    println!("cargo:rerun-if-changed={folder}/libmidvokt.a");
    println!("cargo:rustc-link-search=native={folder}");
    println!("cargo:rustc-link-lib=static=midvokt");
}
