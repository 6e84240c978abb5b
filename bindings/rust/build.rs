//! Finds the archive `libegw.a`: in the folder that EGW_LIB names, or else where `make install` put it, in the release of this
//! repository, or where `pkg-config` finds it.

use std::env;
use std::path::{Path, PathBuf};
use std::process::Command;

fn told_by_pkg_config() -> Option<PathBuf> {
    let told = Command::new("pkg-config").args(["--variable=libdir", "egw"]).output().ok()?;
    Some(PathBuf::from(String::from_utf8(told.stdout).ok()?.trim()))
}

fn folder() -> Option<PathBuf> {
    let here = Path::new(env!("CARGO_MANIFEST_DIR"));
    let machine = env::var("CARGO_CFG_TARGET_ARCH").ok()?;
    let beside = [here.join("../../../lib"), here.join(format!("../../release/{machine}-linux"))];
    let named = env::var_os("EGW_LIB").map(PathBuf::from);
    named.into_iter().chain(beside).chain(told_by_pkg_config()).find(|folder| folder.join("libegw.a").exists())
}

fn main() {
    println!("cargo:rerun-if-env-changed=EGW_LIB");
    let folder = folder().expect("there is no libegw.a: name its folder in EGW_LIB");
    println!("cargo:rerun-if-changed={}", folder.join("libegw.a").display());
    println!("cargo:rustc-link-search=native={}", folder.display());
    println!("cargo:rustc-link-lib=static=egw");
}
