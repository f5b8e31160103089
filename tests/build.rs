//! Tells the crate which compiler builds it, for the table of times; the crate `togbefulo` links the proved code.

use std::{env, process::Command};

fn main() {
    let compiler = env::var("RUSTC").expect("cargo names the compiler");
    let version = Command::new(compiler)
        .arg("--version")
        .output()
        .expect("the compiler tells its version");
    println!(
        "cargo:rustc-env=RUSTC_VERSION={}",
        String::from_utf8_lossy(&version.stdout).trim()
    );
    println!("cargo:rerun-if-changed=build.rs");
}
