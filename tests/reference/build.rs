//! Writes the module declarations that bring in the published source from where it
//! lies, so that not a line of it is copied or changed.

use std::path::{Path, PathBuf};
use std::{env, fs};

const FOLDER: &str = "MIDVOKT_REFERENCE_SRC";

/// The published files that planning needs.
const MODULES: [&str; 9] = [
    "active",
    "bits",
    "component_plan",
    "errors",
    "factored",
    "frames",
    "pauli",
    "pending_optimizer",
    "symbolic",
];

/// One module read from its published file. Planning uses only a part of each.
fn declaration(folder: &Path, module: &str) -> String {
    let file = folder.join("src").join(format!("{module}.rs"));
    println!("cargo::rerun-if-changed={}", file.display());
    format!("#[allow(unused)]\n#[path = {file:?}]\npub mod {module};\n")
}

fn main() {
    println!("cargo::rerun-if-changed=build.rs");
    println!("cargo::rerun-if-env-changed={FOLDER}");
    let folder = env::var_os(FOLDER)
        .unwrap_or_else(|| panic!("{FOLDER} is not set; use tests/reference/run"));
    let folder =
        fs::canonicalize(&folder).unwrap_or_else(|error| panic!("{FOLDER} {folder:?}: {error}"));
    let declarations: String = MODULES
        .iter()
        .map(|module| declaration(&folder, module))
        .collect();
    let out = PathBuf::from(env::var_os("OUT_DIR").expect("cargo gives OUT_DIR"));
    fs::write(out.join("modules.rs"), declarations).expect("OUT_DIR can be written");
}
