//! The opcodes by name, in the order of the names of include/mmix_disassemble.h. With the feature `library`: link libmmix.a from MMIX_LIB_DIR (../build unless set). With MMIX_MODEL_SRC, a changed copy of
//! src/model: compare that copy in the place of the model (bin/mutants.rs).

use std::fmt::Write;
use std::path::PathBuf;
use std::{env, fs};

/// A constant for each opcode. Rust has no name that begins with a digit: 2ADDU is ADDU2.
fn opcodes() {
    let header = PathBuf::from(env::var_os("CARGO_MANIFEST_DIR").unwrap()).join("../include/mmix_disassemble.h");
    println!("cargo:rerun-if-changed={}", header.display());
    let text = fs::read_to_string(&header).unwrap();
    let names = text.split_once("names[256] = {").expect("the names of the opcodes").1.split_once('}').unwrap().0;
    let mut out = String::new();
    for (op, name) in names.split('"').skip(1).step_by(2).enumerate() {
        let digits = name.chars().take_while(char::is_ascii_digit).count();
        writeln!(out, "pub const {}{}: u8 = {op:#04X};", &name[digits..], &name[..digits]).unwrap();
    }
    assert_eq!(out.lines().count(), 256, "opcodes");
    fs::write(PathBuf::from(env::var_os("OUT_DIR").unwrap()).join("opcodes.rs"), out).unwrap();
}

fn main() {
    opcodes();
    println!("cargo:rustc-check-cfg=cfg(changed_model)");
    println!("cargo:rerun-if-env-changed=MMIX_MODEL_SRC");
    if let Some(folder) = env::var_os("MMIX_MODEL_SRC") {
        let file = PathBuf::from(env::var_os("OUT_DIR").unwrap()).join("compared.rs");
        let module = format!("#[path = {:?}]\npub mod compared;\n", PathBuf::from(folder).join("mod.rs"));
        fs::write(file, module).unwrap();
        println!("cargo:rustc-cfg=changed_model");
    }
    println!("cargo:rerun-if-env-changed=MMIX_LIB_DIR");
    if env::var_os("CARGO_FEATURE_LIBRARY").is_none() {
        return;
    }
    let folder = match env::var_os("MMIX_LIB_DIR") {
        Some(folder) => PathBuf::from(folder),
        None => PathBuf::from(env::var_os("CARGO_MANIFEST_DIR").unwrap()).join("../build"),
    };
    println!("cargo:rustc-link-search=native={}", folder.display());
    println!("cargo:rustc-link-lib=static=mmix");
    println!("cargo:rerun-if-changed={}", folder.join("libmmix.a").display());
}
