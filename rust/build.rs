//! Links the archive that `./build ropeclover` writes; ROPECLOVER_LIB names another folder that holds it.
use std::env;
use std::path::PathBuf;
use std::process::exit;

/// The folder that ROPECLOVER_LIB names, else the one that `./build` writes to.
fn folder() -> PathBuf {
    match env::var_os("ROPECLOVER_LIB") {
        Some(folder) => PathBuf::from(folder),
        None => PathBuf::from(env::var_os("CARGO_MANIFEST_DIR").unwrap_or_default()).join("../target/staticlib"),
    }
}

fn main() {
    let folder = folder();
    let archive = folder.join("libropeclover.a");
    println!("cargo:rerun-if-env-changed=ROPECLOVER_LIB");
    println!("cargo:rerun-if-changed={}", archive.display());
    if !archive.exists() {
        eprintln!(
            "error: {} is missing: run `./build ropeclover` in the repository's root,\n\
             or set ROPECLOVER_LIB to the folder that holds libropeclover.a",
            archive.display()
        );
        exit(1);
    }
    println!("cargo:rustc-link-search=native={}", folder.display());
    println!("cargo:rustc-link-lib=static=ropeclover");
}
