//! Links the proved archive, from LEAP_LIB_DIR or the repository's target/staticlib.

use std::env;
use std::path::PathBuf;
use std::process::exit;

fn main() {
    let folder = match env::var_os("LEAP_LIB_DIR") {
        Some(folder) => PathBuf::from(folder),
        None => PathBuf::from(env::var_os("CARGO_MANIFEST_DIR").unwrap_or_default())
            .join("../../target/staticlib"),
    };
    let archive = folder.join("libleap.a");
    println!("cargo:rerun-if-env-changed=LEAP_LIB_DIR");
    println!("cargo:rerun-if-changed={}", archive.display());
    if !archive.is_file() {
        eprintln!("{} is missing", archive.display());
        eprintln!("run: tools/build archive (or name the archive's folder in LEAP_LIB_DIR)");
        exit(1);
    }
    println!("cargo:rustc-link-search=native={}", folder.display());
    println!("cargo:rustc-link-lib=static=leap");
}
