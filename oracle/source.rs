// Shared by the build scripts: where the Rust lies, and how its files become modules without being copied into this repository.

use std::path::{Path, PathBuf};
use std::{env, fs};

/// The folder of one crate's source under the folder that ZIBROTKA_RUST names. Taken from oracle/ where it is relative.
pub fn folder(crate_name: &str) -> PathBuf {
    println!("cargo:rerun-if-env-changed=ZIBROTKA_RUST");
    let oracle = Path::new(&env::var("CARGO_MANIFEST_DIR").unwrap()).parent().unwrap().to_path_buf();
    let named = env::var("ZIBROTKA_RUST").ok().filter(|name| !name.is_empty());
    let rust = oracle.join(named.as_deref().unwrap_or("../../shared/docs/src"));
    let folder = rust.join("crates").join(crate_name).join("src");
    match folder.canonicalize() {
        Ok(there) => there,
        Err(_) => panic!("no folder {}: set ZIBROTKA_RUST to the folder that holds crates/{crate_name}/src", folder.display()),
    }
}

/// One file as a public module, read where it lies.
pub fn module(folder: &Path, name: &str) -> String {
    let file = folder.join(format!("{name}.rs"));
    println!("cargo:rerun-if-changed={}", file.display());
    assert!(file.is_file(), "no file {}", file.display());
    mount(&file, name)
}

/// One file with a few lines appended, as a public module; the longer file is in the build folder only.
#[allow(dead_code)]
pub fn module_with(folder: &Path, name: &str, appended: &str) -> String {
    let file = folder.join(format!("{name}.rs"));
    println!("cargo:rerun-if-changed={}", file.display());
    let text = fs::read_to_string(&file).unwrap_or_else(|why| panic!("{}: {why}", file.display()));
    let longer = out().join(format!("{name}.rs"));
    fs::write(&longer, text + appended).unwrap();
    mount(&longer, name)
}

pub fn write_glue(text: &str) {
    println!("cargo:rerun-if-changed=build.rs");
    println!("cargo:rerun-if-changed=../source.rs");
    fs::write(out().join("glue.rs"), text).unwrap();
}

fn mount(file: &Path, name: &str) -> String {
    format!("#[allow(warnings)]\n#[path = {file:?}]\npub mod {name};\n")
}

fn out() -> PathBuf {
    PathBuf::from(env::var("OUT_DIR").unwrap())
}
