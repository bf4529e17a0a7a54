// Links libmoatbetony.a: from the folder that MOATBETONY_LIB_DIR names, else from target/staticlib of this repository.
use std::env;
use std::path::{Path, PathBuf};

fn main() {
    println!("cargo:rerun-if-env-changed=MOATBETONY_LIB_DIR");
    let folder = match env::var_os("MOATBETONY_LIB_DIR") {
        Some(folder) => PathBuf::from(folder),
        None => Path::new(&env::var_os("CARGO_MANIFEST_DIR").expect("cargo sets it")).join("../../target/staticlib"),
    };
    let archive = folder.join("libmoatbetony.a");
    println!("cargo:rerun-if-changed={}", archive.display());
    if !archive.is_file() {
        println!("cargo:warning=no {}: set MOATBETONY_LIB_DIR to the folder of libmoatbetony.a", archive.display());
    }
    println!("cargo:rustc-link-search=native={}", folder.display());
    println!("cargo:rustc-link-lib=static=moatbetony");
}
