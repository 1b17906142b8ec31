//! Finds the archive `libmvrlu.a`: in the folder that `MVRLU_LIB_DIR` names, or else in the one that `pkg-config` tells.

use std::env;
use std::path::PathBuf;
use std::process::{exit, Command};

const ARCHIVE: &str = "libmvrlu.a";
const FOLDER: &str = "MVRLU_LIB_DIR";
const HELP: &str = "\
The package `mvrlu` links the static library libmvrlu.a. Do one of these, and build again:
  - set MVRLU_LIB_DIR to the folder that holds libmvrlu.a;
  - or install the library, and let PKG_CONFIG_PATH name the folder that holds its mvrlu.pc.
The page docs/C.md of the library's repository says how the archive is made.";

fn main() {
    println!("cargo:rerun-if-changed=build.rs");
    println!("cargo:rerun-if-env-changed={FOLDER}");
    println!("cargo:rerun-if-env-changed=PKG_CONFIG_PATH");
    match find_folder() {
        Ok(folder) => link(&folder),
        Err(why) => {
            eprintln!("{why}\n{HELP}");
            exit(1);
        }
    }
}

/// The folder that holds the archive, or why there is none.
fn find_folder() -> Result<PathBuf, String> {
    check_target()?;
    let (folder, teller) = match env::var_os(FOLDER) {
        Some(named) => (PathBuf::from(named), FOLDER),
        None => (ask_pkg_config()?, "pkg-config"),
    };
    // Cargo builds a package in its own folder, which a relative path isn't meant from.
    if !folder.is_absolute() {
        return Err(format!("{teller} tells {}, which is not an absolute path.", folder.display()));
    }
    if !folder.join(ARCHIVE).is_file() {
        return Err(format!("{teller} tells {}, and there is no {ARCHIVE} in it.", folder.display()));
    }
    Ok(folder)
}

fn check_target() -> Result<(), String> {
    let part = |name| env::var(name).unwrap_or_default();
    let target = (part("CARGO_CFG_TARGET_ARCH"), part("CARGO_CFG_TARGET_OS"));
    if target == ("x86_64".into(), "linux".into()) {
        return Ok(());
    }
    Err(format!("libmvrlu runs on x86-64 Linux, and this is for {} {}.", target.0, target.1))
}

fn ask_pkg_config() -> Result<PathBuf, String> {
    let said = Command::new("pkg-config").args(["--variable=libdir", "mvrlu"]).output();
    let said = said.map_err(|why| format!("{FOLDER} is not set, and pkg-config does not run: {why}."))?;
    let folder = String::from_utf8_lossy(&said.stdout).trim().to_owned();
    if said.status.success() && !folder.is_empty() {
        return Ok(PathBuf::from(folder));
    }
    Err(format!("{FOLDER} is not set, and pkg-config knows no package mvrlu."))
}

fn link(folder: &std::path::Path) {
    println!("cargo:rerun-if-changed={}", folder.join(ARCHIVE).display());
    println!("cargo:rustc-link-search=native={}", folder.display());
    println!("cargo:rustc-link-lib=static=mvrlu");
}
