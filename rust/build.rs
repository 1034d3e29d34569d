//! Finds the installed library by pkg-config; LAMWIEST_LIB names its folder in place of that.

use std::env;
use std::process::Command;

fn main() {
    for name in ["LAMWIEST_LIB", "PKG_CONFIG_PATH", "PKG_CONFIG_LIBDIR"] {
        println!("cargo:rerun-if-env-changed={name}");
    }
    if let Ok(folder) = env::var("LAMWIEST_LIB") {
        println!("cargo:rustc-link-search=native={folder}");
        return;
    }
    let found = Command::new("pkg-config")
        .args(["--variable=libdir", "lamwiest"])
        .output()
        .expect("pkg-config has to be there, or LAMWIEST_LIB");
    let folder = String::from_utf8_lossy(&found.stdout).trim().to_owned();
    assert!(found.status.success(), "pkg-config knows no lamwiest");
    println!("cargo:rustc-link-search=native={folder}");
}
