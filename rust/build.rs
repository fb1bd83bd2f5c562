//! Links the proved library when its archive is there and sets the cfg `proved`.
//! POOL_ARCHIVE names another archive; without any archive the crate stands alone.
//! The archive of the crate `probe` goes into the benchmark of worth alone, with the cfg `probe`.

use std::env;
use std::path::{Path, PathBuf};

fn main() {
    println!("cargo:rustc-check-cfg=cfg(proved)");
    println!("cargo:rerun-if-changed=build.rs");
    println!("cargo:rerun-if-env-changed=POOL_ARCHIVE");
    let archive = archive_path();
    println!("cargo:rerun-if-changed={}", archive.display());
    if archive.is_file() {
        link(&archive);
    } else {
        println!("cargo:warning=no proved archive: comparison tests are left out");
    }
    link_probe(&beside("libprobe.a"));
}

/// The archive named by POOL_ARCHIVE, or the usual place beside this package.
fn archive_path() -> PathBuf {
    match env::var_os("POOL_ARCHIVE") {
        Some(path) => PathBuf::from(path),
        None => beside("libdesk.a"),
    }
}

/// An archive in the usual place beside this package.
fn beside(file: &str) -> PathBuf {
    let package = env::var_os("CARGO_MANIFEST_DIR").expect("set by cargo");
    Path::new(&package).join("../target/staticlib").join(file)
}

/// Tells cargo to link exactly this file.
fn link(archive: &Path) {
    let folder = archive.parent().expect("a file has a folder");
    let file = archive.file_name().expect("a file has a name");
    println!("cargo:rustc-cfg=proved");
    println!("cargo:rustc-link-search=native={}", folder.display());
    println!(
        "cargo:rustc-link-lib=static:+verbatim={}",
        file.to_string_lossy()
    );
}

/// Links the benchmark of worth with the archive of `probe`, if that is there.
fn link_probe(archive: &Path) {
    println!("cargo:rustc-check-cfg=cfg(probe)");
    println!("cargo:rerun-if-changed={}", archive.display());
    if archive.is_file() {
        println!("cargo:rustc-cfg=probe");
        println!("cargo:rustc-link-arg-bin=bench_worth={}", archive.display());
    }
}
