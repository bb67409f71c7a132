//! Finds libvp8: in the folder that VP8_LIB_DIR names, or by pkg-config. Prefers the static library.
//!
//! Not proved: the whole file.

use std::{env, path::PathBuf, process::Command, process::ExitCode};

fn main() -> ExitCode {
    println!("cargo:rerun-if-env-changed=VP8_LIB_DIR");
    println!("cargo:rerun-if-env-changed=PKG_CONFIG_PATH");
    let Some(folder) = from_environment().or_else(from_pkg_config) else {
        eprintln!("libvp8 is not found: set VP8_LIB_DIR to its folder, or install vp8.pc");
        return ExitCode::FAILURE;
    };
    let archive = folder.join("libvp8.a");
    let kind = if archive.exists() { "static" } else { "dylib" };
    println!("cargo:rustc-link-search=native={}", folder.display());
    println!("cargo:rustc-link-lib={kind}=vp8");
    println!("cargo:rerun-if-changed={}", archive.display());
    ExitCode::SUCCESS
}

fn from_environment() -> Option<PathBuf> {
    env::var_os("VP8_LIB_DIR").map(PathBuf::from)
}

fn from_pkg_config() -> Option<PathBuf> {
    let answer = Command::new("pkg-config")
        .args(["--variable=libdir", "vp8"])
        .output()
        .ok()?;
    let folder = String::from_utf8(answer.stdout).ok()?;
    answer
        .status
        .success()
        .then(|| PathBuf::from(folder.trim()))
}
