//! Tells the compiler where the proved static library lies: in MIDVOKT_LIB_DIR, or else
//! in the project's own target/staticlib.

use std::path::{Path, PathBuf};
use std::{env, fs, process};

const FOLDER: &str = "MIDVOKT_LIB_DIR";
/// The folder that cargo was called in, as shells say it.
const CALLED_IN: &str = "PWD";

/// The package's folder.
fn package() -> PathBuf {
    let package = env::var_os("CARGO_MANIFEST_DIR").unwrap_or_else(|| ".".into());
    let package = PathBuf::from(package);
    fs::canonicalize(&package).unwrap_or(package)
}

/// Where a folder lies: from where cargo was called if it is there, else from the package if it is
/// there, else from where cargo was called.
fn found(folder: &Path) -> PathBuf {
    let called_in = env::var_os(CALLED_IN).map(PathBuf::from);
    let called_in = called_in.filter(|folder| folder.is_absolute());
    let places = [called_in, Some(package())];
    let mut places = places.iter().flatten().map(|place| place.join(folder));
    let first = places.next().unwrap_or_default();
    if first.is_dir() {
        return first;
    }
    places.find(|place| place.is_dir()).unwrap_or(first)
}

/// The folder of libmidvokt.a.
fn folder(named: Option<&Path>) -> PathBuf {
    let folder = match named {
        Some(named) => found(named),
        None => {
            let package = package();
            let project = package.ancestors().nth(2).unwrap_or(&package);
            project.join("target/staticlib")
        }
    };
    fs::canonicalize(&folder).unwrap_or(folder)
}

fn main() {
    let named = env::var_os(FOLDER).filter(|named| !named.is_empty());
    let named = named.as_ref().map(Path::new);
    let folder = folder(named);
    let archive = folder.join("libmidvokt.a");
    if !archive.is_file() {
        eprintln!(
            "midvokt: no libmidvokt.a in {}: run tools/static-library of the Midvokt project, or \
             set {FOLDER} to the folder that holds it",
            folder.display()
        );
        process::exit(1);
    }
    println!("cargo:rerun-if-changed=build.rs");
    println!("cargo:rerun-if-changed={}", archive.display());
    println!("cargo:rerun-if-env-changed={FOLDER}");
    if named.is_some_and(Path::is_relative) {
        println!("cargo:rerun-if-env-changed={CALLED_IN}");
    }
    println!("cargo:rustc-link-search=native={}", folder.display());
    println!("cargo:rustc-link-lib=static=midvokt");
}
