//! Links ICU with its shim, the library of chrono and time, and what is written by hand in C, where they or a compiler are there. The
//! archive of ours is linked by the crate for Rust.

use std::env;
use std::path::Path;
use std::process::Command;

fn main() {
    println!("cargo:rustc-check-cfg=cfg(icu)");
    println!("cargo:rerun-if-env-changed=ICU_VERSION");
    println!("cargo:rerun-if-changed=build.rs");
    println!("cargo:rerun-if-changed=icu.c");
    println!("cargo:rerun-if-changed=hand.c");
    others();
    hand();
    if let Some(words) = icu() {
        println!("cargo:rustc-cfg=icu");
        for word in words {
            println!("cargo:rustc-link-arg={word}");
        }
    }
}

/// chrono and time, by the library that bench/run made of them.
fn others() {
    println!("cargo:rustc-check-cfg=cfg(others)");
    println!("cargo:rerun-if-env-changed=OTHERS");
    println!("cargo:rerun-if-env-changed=OTHERS_VERSIONS");
    let Some(library) = env::var("OTHERS").ok().filter(|library| !library.is_empty()) else {
        return;
    };
    println!("cargo:rerun-if-changed={library}");
    println!("cargo:rustc-cfg=others");
    println!("cargo:rustc-link-arg={library}");
    if let Some(folder) = Path::new(&library).parent() {
        println!("cargo:rustc-link-arg=-Wl,-rpath,{}", folder.display());
    }
}

/// The functions for one pattern each, as a compiler makes them by itself.
fn hand() {
    println!("cargo:rustc-check-cfg=cfg(hand)");
    if let Some(object) = compiled("hand", &[]) {
        println!("cargo:rustc-cfg=hand");
        println!("cargo:rustc-link-arg={object}");
    }
}

/// The words that link ICU, its shim first; none where ICU is not there.
fn icu() -> Option<Vec<String>> {
    let flags = pkg_config("--cflags")?;
    let libraries = pkg_config("--libs")?;
    Some([vec![compiled("icu", &flags)?], libraries].concat())
}

/// The object of a file in C; none where it can't be made.
fn compiled(name: &str, flags: &[String]) -> Option<String> {
    let object = Path::new(&env::var("OUT_DIR").ok()?).join(format!("{name}.o"));
    let compiler = env::var("CC").unwrap_or_else(|_| "cc".to_string());
    let made = Command::new(compiler)
        .args(["-O2", "-fPIC", "-c", &format!("{name}.c"), "-o"])
        .arg(&object)
        .args(flags)
        .status()
        .is_ok_and(|status| status.success());
    object.to_str().filter(|_| made).map(str::to_string)
}

fn pkg_config(what: &str) -> Option<Vec<String>> {
    let output = Command::new("pkg-config").args([what, "icu-i18n"]).output().ok()?;
    let words = String::from_utf8(output.stdout)
        .ok()
        .filter(|_| output.status.success())?;
    Some(words.split_whitespace().map(str::to_string).collect())
}
