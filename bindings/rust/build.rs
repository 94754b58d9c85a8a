//! Links the archive of the library `sheet`: the one that SHEET_ARCHIVE names, or else the one that ships for the target of this
//! build, or else one that tools/archive makes.

use std::env;
use std::path::{Path, PathBuf};
use std::process::{exit, Command};

fn main() {
    let top = folder("CARGO_MANIFEST_DIR").join("../..");
    let out = folder("OUT_DIR");
    println!("cargo:rerun-if-env-changed=SHEET_ARCHIVE");
    let mut archiver = Command::new(top.join("tools/archive"));
    match given().or_else(|| shipped(&top)) {
        Some(archive) => {
            rerun_if_changed(&archive);
            archiver.env("SHEET_ARCHIVE", archive);
        }
        None => {
            same_machine();
            for source in ["crates", "crates.txt", "tools/archive", "tools/module"] {
                rerun_if_changed(&top.join(source));
            }
        }
    }
    let made = archiver.arg(out.join("libsheet.a")).status();
    if !made.is_ok_and(|status| status.success()) {
        stop("there is no archive of the library: tools/archive made none, and SHEET_ARCHIVE names none by its full path");
    }
    println!("cargo:rustc-link-search=native={}", out.display());
    println!("cargo:rustc-link-lib=static=sheet");
}

/// The archive that is already made; cargo builds in another folder than its caller's, so a part of a path says too little.
fn given() -> Option<PathBuf> {
    let archive = PathBuf::from(env::var_os("SHEET_ARCHIVE").filter(|name| !name.is_empty())?);
    if !archive.is_absolute() {
        stop(&format!(
            "SHEET_ARCHIVE has to name the archive by its full path, and is {}",
            archive.display()
        ));
    }
    if !archive.is_file() {
        stop(&format!(
            "SHEET_ARCHIVE names {}, and there is no such file",
            archive.display()
        ));
    }
    Some(archive)
}

/// The archive of dist/ for the target of this build, where there is one.
fn shipped(top: &Path) -> Option<PathBuf> {
    let target = env::var("TARGET").expect("cargo sets it");
    let archive = top.join("dist").join(target).join("libsheet.a");
    archive.is_file().then_some(archive)
}

/// tools/archive makes an archive for the machine that it runs on.
fn same_machine() {
    let [machine, system] =
        ["CARGO_CFG_TARGET_ARCH", "CARGO_CFG_TARGET_OS"].map(|name| env::var(name).unwrap_or_default());
    if (machine.as_str(), system.as_str()) != (env::consts::ARCH, env::consts::OS) {
        stop(&format!(
            "this build is for {machine} with {system} and runs on {} with {}: SHEET_ARCHIVE has to name an archive of the \
             library for the former, which tools/archive makes on such a machine",
            env::consts::ARCH,
            env::consts::OS
        ));
    }
}

fn rerun_if_changed(path: &Path) {
    println!("cargo:rerun-if-changed={}", path.display());
}

fn folder(variable: &str) -> PathBuf {
    env::var_os(variable).expect("cargo sets it").into()
}

fn stop(sentence: &str) -> ! {
    eprintln!("{sentence}");
    exit(1)
}
