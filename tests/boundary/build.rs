// Links libmoatbetony.a from target/staticlib of this repository, or from the folder that MOATBETONY_LIB_DIR names.
fn main() {
    println!("cargo:rerun-if-env-changed=MOATBETONY_LIB_DIR");
    let built = format!("{}/../../target/staticlib", env!("CARGO_MANIFEST_DIR"));
    let folder = std::env::var("MOATBETONY_LIB_DIR").unwrap_or(built);
    println!("cargo:rerun-if-changed={folder}/libmoatbetony.a");
    println!("cargo:rustc-link-search=native={folder}");
    println!("cargo:rustc-link-lib=static=moatbetony");
}
