//! Links the proved library, from the folder SNEZHULKA_LIB or from where `rt lib` in crates/snezhulka puts it.

use std::env;
use std::path::{Path, PathBuf};

fn main() {
    println!("cargo:rerun-if-env-changed=SNEZHULKA_LIB");
    let folder = match env::var_os("SNEZHULKA_LIB") {
        Some(folder) => PathBuf::from(folder),
        None => default_folder(),
    };
    println!("cargo:rustc-link-search=native={}", folder.display());
    println!("cargo:rustc-link-lib=static=snezhulka");
    println!(
        "cargo:rerun-if-changed={}",
        folder.join("libsnezhulka.a").display()
    );
}

fn default_folder() -> PathBuf {
    let package = env::var_os("CARGO_MANIFEST_DIR").expect("cargo sets CARGO_MANIFEST_DIR");
    Path::new(&package).join("../../crates/snezhulka/out")
}
