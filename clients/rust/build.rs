//! Finds libnvmesim: in the folder that NVMESIM_LIB names, or by pkg-config.

use std::env;
use std::process::Command;

fn main() {
    println!("cargo:rerun-if-env-changed=NVMESIM_LIB");
    println!("cargo:rerun-if-env-changed=PKG_CONFIG_PATH");
    let folder = env::var("NVMESIM_LIB").unwrap_or_else(|_| installed());
    println!("cargo:rerun-if-changed={folder}/libnvmesim.a");
    println!("cargo:rustc-link-search=native={folder}");
    println!("cargo:rustc-link-lib=static=nvmesim");
}

/// The folder that pkg-config knows.
fn installed() -> String {
    let asked = Command::new("pkg-config").args(["--variable=libdir", "nvmesim"]).output();
    let folder = asked.map(|found| String::from_utf8_lossy(&found.stdout).trim().to_owned()).unwrap_or_default();
    assert!(!folder.is_empty(), "libnvmesim is not found: set NVMESIM_LIB to its folder, or PKG_CONFIG_PATH");
    folder
}
