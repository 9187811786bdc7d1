//! Copies the two Rust files byte for byte into the build folder. After the last byte of
//! identity_set.rs stand two lines more: one brings in a method that the compiler has only as
//! an unstable one, the other declares the child module that reads what is private there.

use std::path::{Path, PathBuf};
use std::{env, fs};

const FILES: [&str; 2] = ["identity_set", "ordinal_deletion_set"];

fn main() {
    println!("cargo::rerun-if-env-changed=DORADB_SRC");
    println!("cargo::rerun-if-changed=build.rs");
    link_pelisafu();
    link_roaring();
    let package = PathBuf::from(env::var_os("CARGO_MANIFEST_DIR").expect("cargo sets it"));
    let out = PathBuf::from(env::var_os("OUT_DIR").expect("cargo sets it"));
    let sources = match env::var_os("DORADB_SRC") {
        Some(folder) => PathBuf::from(folder),
        None => package.join("../../shared/docs/src"),
    };
    let mut modules = String::new();
    for name in FILES {
        let original = sources.join(format!("doradb-storage/src/index/{name}.rs"));
        println!("cargo::rerun-if-changed={}", original.display());
        let Ok(mut code) = fs::read_to_string(&original) else {
            println!("cargo::error=there is no {}", original.display());
            return;
        };
        if name == "identity_set" {
            code += &added_lines(&package);
        }
        let copy = out.join(format!("{name}.rs"));
        fs::write(&copy, code).expect("the build folder takes files");
        modules += &format!(
            "#[allow(dead_code, unstable_name_collisions)]\n#[path = {copy:?}]\npub(crate) mod {name};\n"
        );
    }
    fs::write(out.join("modules.rs"), modules).expect("the build folder takes files");
}

/// Links Pelisafu's static library where its path is given. Without it the comparison with
/// Pelisafu's own code is left out.
fn link_pelisafu() {
    println!("cargo::rustc-check-cfg=cfg(pelisafu)");
    println!("cargo::rerun-if-env-changed=PELISAFU_LIB");
    let Some(library) = env::var_os("PELISAFU_LIB").map(PathBuf::from) else {
        return;
    };
    let Some(folder) = library.parent().filter(|_| library.is_file()) else {
        println!("cargo::error=there is no {}", library.display());
        return;
    };
    println!("cargo::rerun-if-changed={}", library.display());
    println!("cargo::rustc-link-search=native={}", folder.display());
    println!("cargo::rustc-link-lib=static=pelisafu");
    println!("cargo::rustc-cfg=pelisafu");
}

/// Links CRoaring where the caller has found it, for the benchmark alone.
fn link_roaring() {
    println!("cargo::rustc-check-cfg=cfg(roaring)");
    println!("cargo::rerun-if-env-changed=WITH_ROARING");
    if env::var_os("WITH_ROARING").is_some() {
        println!("cargo::rustc-link-lib=roaring");
        println!("cargo::rustc-cfg=roaring");
    }
}

fn added_lines(package: &Path) -> String {
    let probe = package.join("src/index/probe.rs");
    format!(
        "\n#[allow(unused_imports)]\nuse crate::bit_width::BitWidth as _;\n\
         #[path = {probe:?}]\npub(crate) mod probe;\n"
    )
}
