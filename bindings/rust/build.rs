//! Links the proved library: of the folder that SHEET_LIB_DIR names, as it was installed, or else as `rt lib` in crates/capi writes it here.
use std::env;
use std::path::{Path, PathBuf};

fn main() {
    println!("cargo:rerun-if-env-changed=SHEET_LIB_DIR");
    // asked when it runs, so that a copy of the repository links its own library
    let here = env::var("CARGO_MANIFEST_DIR").expect("cargo names the folder");
    let folder = env::var_os("SHEET_LIB_DIR").map_or_else(|| Path::new(&here).join("../../crates/capi/out"), PathBuf::from);
    let path = |name: &&str| folder.join(format!("lib{name}.a"));
    let name = ["sheet", "capi"].into_iter().find(|name| path(name).exists());
    let name = name.unwrap_or_else(|| {
        panic!(
            "no libsheet.a or libcapi.a in {}: run `rt lib` in crates/capi first, or set SHEET_LIB_DIR",
            folder.display()
        )
    });
    println!("cargo:rerun-if-changed={}", path(&name).display());
    println!("cargo:rustc-link-search=native={}", folder.display());
    println!("cargo:rustc-link-lib=static={name}");
}
