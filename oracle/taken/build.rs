//! Lays the taken Rust files and the stand-ins out as one source tree under OUT_DIR, which src/lib.rs
//! includes. MMIX_RUST_SRC names the folder of the Rust; the files are used as they are.

use std::path::{Path, PathBuf};
use std::{env, fs};

/// Compiled unchanged, by their path under MMIX_RUST_SRC/src.
const TAKEN: [&str; 10] = [
    "mmix.rs",
    "mmix/registers.rs",
    "mmix/memory.rs",
    "mmix/stack.rs",
    "mmix/exceptions.rs",
    "mmix/trap.rs",
    "mmix/host.rs",
    "mmix/dispatch/control.rs",
    "mmix/dispatch/system.rs",
    "mmixal.rs",
];

/// Stand-ins of our own for the files that the taken ones name and that are not to be had.
const STAND_INS: [&str; 9] = [
    "root.rs",
    "encode.rs",
    "mmo.rs",
    "mmix/dispatch.rs",
    "mmix/display.rs",
    "mmix/float.rs",
    "mmix/macros.rs",
    "mmixal/instructions.rs",
    "mmixal/preprocess.rs",
];

/// Parts of the assembler of which nothing is needed.
const EMPTY: [&str; 8] =
    ["diagnostics", "directives", "expressions", "location", "operands", "passes", "symbols", "tree"];

fn main() {
    println!("cargo:rerun-if-env-changed=MMIX_RUST_SRC");
    let here = PathBuf::from(env::var_os("CARGO_MANIFEST_DIR").unwrap()).join("../taken");
    let from = match env::var_os("MMIX_RUST_SRC") {
        Some(folder) => PathBuf::from(folder),
        None => here.join("../../../shared/docs/src"),
    };
    let tree = PathBuf::from(env::var_os("OUT_DIR").unwrap()).join("tree");
    for file in TAKEN {
        place(&from.join("src").join(file), &tree.join(file));
    }
    for file in STAND_INS {
        place(&here.join("standins").join(file), &tree.join(file));
    }
    for part in EMPTY {
        fs::write(tree.join("mmixal").join(part).with_extension("rs"), "").unwrap();
    }
}

fn place(from: &Path, to: &Path) {
    println!("cargo:rerun-if-changed={}", from.display());
    fs::create_dir_all(to.parent().unwrap()).unwrap();
    let text = fs::read(from)
        .unwrap_or_else(|e| panic!("{}: {e}; MMIX_RUST_SRC names the folder of the Rust", from.display()));
    fs::write(to, text).unwrap();
}
