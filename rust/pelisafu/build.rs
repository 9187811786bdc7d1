//! Links libpelisafu.a from the folder in PELISAFU_DIR, or from the folder that `make` fills.

use std::path::PathBuf;
use std::{env, fs};

const ARCHIVE: &str = "libpelisafu.a";

fn main() {
    println!("cargo::rerun-if-env-changed=PELISAFU_DIR");
    println!("cargo::rerun-if-changed=build.rs");
    let package = PathBuf::from(env::var_os("CARGO_MANIFEST_DIR").expect("cargo sets it"));
    let named = env::var_os("PELISAFU_DIR").filter(|folder| !folder.is_empty());
    // A relative name is taken from the package's folder, where cargo runs this program.
    let folder = package.join(named.map_or(PathBuf::from("../../dist"), PathBuf::from));
    println!("cargo::rerun-if-changed={}", folder.join(ARCHIVE).display());
    match fs::canonicalize(&folder) {
        Ok(folder) if folder.join(ARCHIVE).is_file() => {
            println!("cargo::rustc-link-search=native={}", folder.display());
            println!("cargo::rustc-link-lib=static=pelisafu");
        }
        _ => println!(
            "cargo::error=there is no {ARCHIVE} in {}: run `make` in the top folder, \
             or set PELISAFU_DIR to the folder that holds it",
            folder.display()
        ),
    }
}
