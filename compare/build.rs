//! Links libvradomil.a from the folder that VRADOMIL_LIB names.

fn main() {
    println!("cargo:rerun-if-env-changed=VRADOMIL_LIB");
    let root = std::env::var("CARGO_MANIFEST_DIR").expect("cargo sets it");
    let folder = std::env::var("VRADOMIL_LIB").unwrap_or(format!("{root}/../target/staticlib"));
    println!("cargo:rerun-if-changed={folder}/libvradomil.a");
    println!("cargo:rustc-link-search=native={folder}");
    println!("cargo:rustc-link-lib=static=vradomil");
}
