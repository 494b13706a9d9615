//! Links the archive of the proved functions. HUSK_LIB names its folder where it is not the
//! repository's own.
use std::path::PathBuf;

fn main() {
    let here = PathBuf::from(std::env::var("CARGO_MANIFEST_DIR").unwrap());
    let folder = match std::env::var("HUSK_LIB") {
        Ok(folder) => PathBuf::from(folder),
        Err(_) => here.join("../../target/staticlib"),
    };
    println!("cargo:rerun-if-env-changed=HUSK_LIB");
    println!("cargo:rerun-if-changed={}", folder.join("libhusk.a").display());
    println!("cargo:rustc-link-search=native={}", folder.display());
    println!("cargo:rustc-link-lib=static=husk");
}
