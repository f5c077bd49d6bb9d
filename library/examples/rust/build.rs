//! Links libroman. ROMAN_LIBRARY names its folder. Without this variable, pkg-config finds the installed library.
use std::{env, process::Command};

fn main() {
    println!("cargo:rerun-if-env-changed=ROMAN_LIBRARY");
    let folder = env::var("ROMAN_LIBRARY").unwrap_or_else(|_| {
        let words = ["--variable=libdir", "roman"];
        let said = Command::new("pkg-config").args(words).output().expect("pkg-config is needed");
        assert!(said.status.success(), "pkg-config doesn't find roman: install libroman, or set ROMAN_LIBRARY");
        String::from_utf8(said.stdout).expect("a path").trim().to_owned()
    });
    println!("cargo:rustc-link-search=native={folder}");
    println!("cargo:rustc-link-lib=static=roman");
}
