//! Links the proved library in where it is for this processor: on x86-64 the
//! one that `tools/archives` builds, or any that `YARUGOTA_NATIVE_ARCHIVE`
//! names, which must be there.

use std::env;
use std::path::PathBuf;

fn main() {
    println!("cargo:rustc-check-cfg=cfg(store_linked)");
    println!("cargo:rerun-if-env-changed=YARUGOTA_NATIVE_ARCHIVE");
    println!("cargo:rerun-if-changed=build.rs");
    let Some(archive) = archive() else {
        return;
    };
    println!("cargo:rerun-if-changed={}", archive.display());
    if !archive.exists() {
        return;
    }
    let folder = archive.parent().expect("a file is in a folder");
    let name = archive.file_stem().and_then(|stem| stem.to_str());
    let name = name.and_then(|stem| stem.strip_prefix("lib"));
    let name = name.expect("an archive is called libNAME.a");
    println!("cargo:rustc-link-search=native={}", folder.display());
    println!("cargo:rustc-link-lib=static={name}");
    println!("cargo:rustc-cfg=store_linked");
}

fn archive() -> Option<PathBuf> {
    if let Some(named) = env::var_os("YARUGOTA_NATIVE_ARCHIVE") {
        let named = PathBuf::from(named);
        let good = named.is_absolute() && named.is_file();
        assert!(
            good,
            "YARUGOTA_NATIVE_ARCHIVE is not the whole path of an archive: {named:?}"
        );
        return Some(named);
    }
    let processor = env::var("CARGO_CFG_TARGET_ARCH").expect("cargo names the processor");
    let package = env::var("CARGO_MANIFEST_DIR").expect("cargo names the package's directory");
    let repository = PathBuf::from(package).join("../..");
    (processor == "x86_64").then(|| repository.join("target/staticlib/libstore.a"))
}
