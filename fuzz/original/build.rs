//! Copies identity_set.rs byte for byte into the build folder. After its last byte stands one
//! line more: it brings in a method that the compiler has only as an unstable one.

use std::path::PathBuf;
use std::{env, fs};

fn main() {
    println!("cargo::rerun-if-env-changed=DORADB_SRC");
    println!("cargo::rerun-if-changed=build.rs");
    let sources = PathBuf::from(env::var_os("DORADB_SRC").unwrap_or_default());
    let original = sources.join("doradb-storage/src/index/identity_set.rs");
    println!("cargo::rerun-if-changed={}", original.display());
    let Ok(code) = fs::read_to_string(&original) else {
        println!("cargo::error=there is no {}", original.display());
        return;
    };
    let out = PathBuf::from(env::var_os("OUT_DIR").expect("cargo sets it"));
    let copy = out.join("identity_set.rs");
    let added = "\n#[allow(unused_imports)]\nuse crate::bit_width::BitWidth as _;\n";
    fs::write(&copy, code + added).expect("the build folder takes files");
    let module = format!(
        "#[allow(dead_code, unstable_name_collisions)]\n#[path = {copy:?}]\npub(crate) mod identity_set;\n"
    );
    fs::write(out.join("modules.rs"), module).expect("the build folder takes files");
}
