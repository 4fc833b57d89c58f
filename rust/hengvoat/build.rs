//! Links libhengvoat.a, from the folder `HENGVOAT_LIB_DIR` or from where `tools/build` writes it.

use std::env;
use std::path::{Path, PathBuf};
use std::process;

const ARCHIVE: &str = "libhengvoat.a";

fn main() {
    println!("cargo:rerun-if-env-changed=HENGVOAT_LIB_DIR");
    println!("cargo:rerun-if-changed=build.rs");

    // The archive is built for one machine; elsewhere the linker's message would not say so.
    let arch = env::var("CARGO_CFG_TARGET_ARCH").unwrap_or_default();
    let family = env::var("CARGO_CFG_TARGET_FAMILY").unwrap_or_default();
    if arch != "x86_64" || family != "unix" {
        fail(&format!(
            "{ARCHIVE} is for x86-64 with the System V calling convention, not for {arch} {family}"
        ));
    }

    let folder = folder();
    let archive = folder.join(ARCHIVE);
    println!("cargo:rerun-if-changed={}", archive.display());
    if !archive.is_file() {
        fail(&format!(
            "there is no {}\n\
             Run `tools/build hengvoat` at the root of the repository: it proves the library and writes {ARCHIVE}.\n\
             If the archive stands elsewhere, set HENGVOAT_LIB_DIR to its folder.",
            archive.display()
        ));
    }
    println!("cargo:rustc-link-search=native={}", folder.display());
    println!("cargo:rustc-link-lib=static=hengvoat");
}

/// A relative `HENGVOAT_LIB_DIR` is taken from this crate's folder, in which Cargo runs this program.
fn folder() -> PathBuf {
    let manifest = env::var_os("CARGO_MANIFEST_DIR").unwrap_or_default();
    match env::var_os("HENGVOAT_LIB_DIR") {
        Some(named) if !named.is_empty() => Path::new(&manifest).join(named),
        _ => {
            let usual = Path::new(&manifest).join("../../target/staticlib");
            usual.canonicalize().unwrap_or(usual)
        }
    }
}

fn fail(message: &str) -> ! {
    eprintln!("hengvoat: {message}");
    process::exit(1);
}
