//! Finds the archive and links it. KNOBTHISTLE_ARCHIVE is the archive's path, or the folder that it is in; without it the archive is the
//! one of a release, beside this crate, or the one that host/archive writes in this repository.

use std::env;
use std::fs;
use std::path::PathBuf;
use std::process::exit;

const NAME: &str = "libknobthistle.a";

fn main() {
    println!("cargo:rerun-if-env-changed=KNOBTHISTLE_ARCHIVE");
    // The README's example is a test of this crate where the README is.
    println!("cargo:rustc-check-cfg=cfg(in_repository)");
    if here().join("../../README.md").is_file() && here().join("../../crates.txt").is_file() {
        println!("cargo:rustc-cfg=in_repository");
    }
    let target = |word: &str| env::var(format!("CARGO_CFG_TARGET_{word}")).unwrap_or_default();
    let (machine, system) = (target("ARCH"), target("OS"));
    if system != "linux" || (machine != "x86_64" && machine != "aarch64") {
        fail(&format!("the archive is for Linux on x86-64 or Arm, not for {system} on {machine}"));
    }
    let archive = archive();
    println!("cargo:rerun-if-changed={}", archive.display());
    // A copy, so that an archive of any file name is found by the one that the linker asks for.
    let room = PathBuf::from(env::var_os("OUT_DIR").expect("cargo names a folder for what is built"));
    if let Err(why) = fs::copy(&archive, room.join(NAME)) {
        fail(&format!("{} cannot be copied: {why}", archive.display()));
    }
    println!("cargo:rustc-link-search=native={}", room.display());
    println!("cargo:rustc-link-lib=static=knobthistle");
}

fn archive() -> PathBuf {
    if let Some(named) = env::var_os("KNOBTHISTLE_ARCHIVE") {
        let named = PathBuf::from(named);
        let archive = if named.is_dir() { named.join(NAME) } else { named };
        if !archive.is_file() {
            fail(&format!("KNOBTHISTLE_ARCHIVE says {}, and there is no such file", archive.display()));
        }
        return archive;
    }
    let found = ["../lib", "../../target/lib"].iter().map(|place| here().join(place).join(NAME)).find(|archive| archive.is_file());
    found.unwrap_or_else(|| {
        fail("there is no libknobthistle.a: run host/archive in the repository, or name an archive in KNOBTHISTLE_ARCHIVE")
    })
}

fn here() -> PathBuf {
    PathBuf::from(env::var_os("CARGO_MANIFEST_DIR").expect("cargo names the crate's folder"))
}

fn fail(why: &str) -> ! {
    eprintln!("knobthistle: {why}");
    exit(1)
}
