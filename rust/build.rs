//! Links the proved code: libtogbefulo.a of the folder that TOGBEFULO_LIB_DIR names, or of crates/togbefulo/out beside
//! this folder.

use std::{
    env,
    path::{Path, PathBuf},
};

const FOLDER: &str = "TOGBEFULO_LIB_DIR";

fn main() {
    println!("cargo::rerun-if-changed=build.rs");
    println!("cargo::rerun-if-env-changed={FOLDER}");
    let folder = folder();
    let library = folder.join("libtogbefulo.a");
    if !library.is_file() {
        println!(
            "cargo::error={} is not there: make it with `rt lib` in crates/togbefulo, or name its folder in {FOLDER}",
            library.display()
        );
        return;
    }
    println!("cargo::rerun-if-changed={}", library.display());
    println!("cargo::rustc-link-search=native={}", folder.display());
    println!("cargo::rustc-link-lib=static=togbefulo");
}

/// A relative path is one from the folder of this crate, where cargo runs this.
fn folder() -> PathBuf {
    let manifest = env::var_os("CARGO_MANIFEST_DIR").expect("cargo names the manifest's folder");
    let beside = || "../crates/togbefulo/out".into();
    Path::new(&manifest).join(env::var_os(FOLDER).unwrap_or_else(beside))
}
