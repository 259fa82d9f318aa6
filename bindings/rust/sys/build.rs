//! Finds libsimple_asn1.a: in the folder SIMPLE_ASN1_LIB; else in lib/, where a released package has it; else where
//! bindings/c/build of this checkout puts it. The last two are for Linux on x86-64.

use std::{env, path::Path, process};

fn main() {
    println!("cargo:rerun-if-env-changed=SIMPLE_ASN1_LIB");
    if env::var_os("DOCS_RS").is_some() {
        return;
    }
    let folder = env::var("SIMPLE_ASN1_LIB").unwrap_or_else(|_| built_folder());
    let archive = format!("{folder}/libsimple_asn1.a");
    println!("cargo:rerun-if-changed={archive}");
    if !Path::new(&archive).exists() {
        eprintln!("There is no {archive}.");
        eprintln!("Run bindings/c/build in a checkout of simple_asn1; set SIMPLE_ASN1_LIB to its bindings/c/out/lib.");
        process::exit(1);
    }
    println!("cargo:rustc-link-search=native={folder}");
    println!("cargo:rustc-link-lib=static=simple_asn1");
}

/// The folder that has the library for the target, of this package or of the checkout.
fn built_folder() -> String {
    let [target, system, processor] =
        ["TARGET", "CARGO_CFG_TARGET_OS", "CARGO_CFG_TARGET_ARCH"].map(|name| env::var(name).unwrap_or_default());
    if (system.as_str(), processor.as_str()) != ("linux", "x86_64") {
        eprintln!("simple_asn1 has its library for Linux on x86-64 alone, and this is built for {target}.");
        eprintln!("Set SIMPLE_ASN1_LIB to a folder that has a libsimple_asn1.a for {target}.");
        process::exit(1);
    }
    let package = env!("CARGO_MANIFEST_DIR");
    let packed = format!("{package}/lib");
    if Path::new(&packed).exists() {
        packed
    } else {
        format!("{package}/../../c/out/lib")
    }
}
