//! Finds the library's archive and links it.

use std::env;
use std::path::{self, PathBuf};
use std::process::exit;

const ARCHIVE: &str = "libtallowwing.a";

fn main() {
    println!("cargo:rerun-if-env-changed=TALLOWWING_LIB_DIR");
    let folder = archive_folder();
    let archive = folder.join(ARCHIVE);
    println!("cargo:rerun-if-changed={}", archive.display());
    if !archive.is_file() {
        eprintln!(
            "The library's archive is missing: {}\nBuild it with library/make-archive, or name the folder that holds \
             {ARCHIVE} in TALLOWWING_LIB_DIR.",
            archive.display()
        );
        exit(1);
    }
    println!("cargo:rustc-link-search=native={}", folder.display());
    println!("cargo:rustc-link-lib=static=tallowwing");
}

/// TALLOWWING_LIB_DIR, else where the library's own build puts it, beside this workspace.
fn archive_folder() -> PathBuf {
    let package = PathBuf::from(env::var_os("CARGO_MANIFEST_DIR").expect("cargo names the package's folder"));
    match env::var_os("TALLOWWING_LIB_DIR") {
        // The linker runs in a folder of its own, so the path must not depend on this one.
        Some(folder) if !folder.is_empty() => path::absolute(&folder).unwrap_or_else(|_| PathBuf::from(folder)),
        _ => {
            let beside = package.ancestors().nth(2).expect("the workspace lies in a folder");
            beside.join("target/staticlib")
        }
    }
}
