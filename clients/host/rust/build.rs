//! Finds libnvmehost: in the folder that NVMEHOST_LIB names, or by pkg-config.

use std::env;
use std::process::Command;

fn main() {
    println!("cargo:rerun-if-env-changed=NVMEHOST_LIB");
    println!("cargo:rerun-if-env-changed=PKG_CONFIG_PATH");
    let folder = env::var("NVMEHOST_LIB").unwrap_or_else(|_| installed());
    println!("cargo:rerun-if-changed={folder}/libnvmehost.a");
    println!("cargo:rustc-link-search=native={folder}");
    println!("cargo:rustc-link-lib=static=nvmehost");
}

/// The folder that pkg-config knows.
fn installed() -> String {
    let asked = Command::new("pkg-config").args(["--variable=libdir", "nvmehost"]).output();
    let folder = asked.map(|found| String::from_utf8_lossy(&found.stdout).trim().to_owned()).unwrap_or_default();
    assert!(!folder.is_empty(), "libnvmehost is not found: set NVMEHOST_LIB to its folder, or PKG_CONFIG_PATH");
    folder
}
