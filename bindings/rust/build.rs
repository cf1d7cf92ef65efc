//! Links libzibrotka.a from the folder that ZIBROTKA_LIB names, else from target/staticlib of the repository, else from lib of the
//! unpacked archive, in which this crate has the same place.

use std::env;
use std::path::{Path, PathBuf};

fn main() {
    println!("cargo::rerun-if-env-changed=ZIBROTKA_LIB");
    println!("cargo::rerun-if-changed=build.rs");
    match judge_target().and_then(|()| folder()) {
        Ok(folder) => {
            println!("cargo::rerun-if-changed={}", library(&folder).display());
            println!("cargo::rustc-link-search=native={}", folder.display());
            println!("cargo::rustc-link-lib=static=zibrotka");
        }
        Err(wrong) => println!("cargo::error={wrong}"),
    }
}

fn judge_target() -> Result<(), String> {
    let told = |what: &str| env::var(format!("CARGO_CFG_TARGET_{what}")).unwrap_or_default();
    match [told("ARCH"), told("OS"), told("POINTER_WIDTH")].each_ref().map(String::as_str) {
        ["x86_64", "linux", "64"] => Ok(()),
        [arch, os, bits] => Err(format!("libzibrotka.a is for x86-64 Linux, and the target is {arch} {os} with {bits} bits")),
    }
}

/// The folder of the library, or what is missing. A relative name is seen from this crate.
fn folder() -> Result<PathBuf, String> {
    let here = PathBuf::from(env::var("CARGO_MANIFEST_DIR").unwrap());
    if let Some(named) = env::var("ZIBROTKA_LIB").ok().filter(|name| !name.is_empty()) {
        let folder = here.join(named);
        let missing = format!("no {}: ZIBROTKA_LIB must name the folder of libzibrotka.a", library(&folder).display());
        return if library(&folder).is_file() { Ok(folder) } else { Err(missing) };
    }
    let places = [here.join("../../target/staticlib"), here.join("../../lib")];
    let [built, unpacked] = places.each_ref().map(|folder| library(folder).display().to_string());
    let missing =
        format!("no {built} and no {unpacked}: make it with './library' in the repository, or let ZIBROTKA_LIB name its folder");
    places.into_iter().find(|folder| library(folder).is_file()).ok_or(missing)
}

fn library(folder: &Path) -> PathBuf {
    folder.join("libzibrotka.a")
}
