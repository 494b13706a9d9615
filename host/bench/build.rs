//! Compiles the C peer, mbedTLS's replay window. Where that fails, the program is built without it.
use std::path::{Path, PathBuf};
use std::process::Command;

/// The C compiler of the target: the cross compiler where host and target differ.
fn compiler() -> &'static str {
    if std::env::var("HOST").unwrap() == std::env::var("TARGET").unwrap() {
        "cc"
    } else {
        "x86_64-linux-gnu-gcc"
    }
}

/// Whether `peers.c` compiled. It does not where mbedTLS's headers are missing, or are of version 3,
/// which keeps these functions to itself.
fn compiled(object: &Path) -> bool {
    let run = Command::new(compiler()).args(["-O2", "-c", "peers.c", "-o"]).arg(object).output();
    run.map_or(false, |output| output.status.success())
}

fn main() {
    println!("cargo:rerun-if-changed=build.rs");
    println!("cargo:rerun-if-changed=peers.c");
    println!("cargo:rustc-check-cfg=cfg(mbedtls)");
    let object = PathBuf::from(std::env::var("OUT_DIR").unwrap()).join("peers.o");
    if !compiled(&object) {
        println!("cargo:warning=no mbedTLS 2 headers for {}: its line is left out", compiler());
        return;
    }
    println!("cargo:rustc-cfg=mbedtls");
    // One list, in this order: a linker drops a shared library that nothing before it has asked for.
    println!("cargo:rustc-link-arg-bins={}", object.display());
    for library in ["mbedtls", "mbedx509", "mbedcrypto"] {
        println!("cargo:rustc-link-arg-bins=-l{library}");
    }
}
