//! Links libjiter.a, from JITER_LIB_DIR or from ffi/build; with JITER_LINK=dylib, the shared library of that folder.
fn main() {
    let beside = concat!(env!("CARGO_MANIFEST_DIR"), "/../build").to_string();
    let folder = std::env::var("JITER_LIB_DIR").unwrap_or(beside);
    println!("cargo:rustc-link-search=native={folder}");
    let kind = std::env::var("JITER_LINK").unwrap_or("static".into());
    println!("cargo:rustc-link-lib={kind}=jiter");
    println!("cargo:rerun-if-env-changed=JITER_LINK");
    println!("cargo:rerun-if-env-changed=JITER_LIB_DIR");
    println!("cargo:rerun-if-changed={folder}/libjiter.a");
}
