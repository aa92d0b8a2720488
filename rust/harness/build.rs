//! Links the archive of calls by value, which tools/archive makes beside the C interface's.

use std::{env, path::PathBuf};

fn main() {
    println!("cargo::rerun-if-env-changed=THRESHCOIL_ARCHIVE");
    let folder = match env::var_os("THRESHCOIL_ARCHIVE") {
        Some(given) => PathBuf::from(given),
        None => PathBuf::from(env::var_os("CARGO_MANIFEST_DIR").unwrap())
            .join("../../target/archive")
            .join(env::var_os("TARGET").unwrap()),
    };
    let archive = folder.join("libc_timed.a");
    println!("cargo::rerun-if-changed={}", archive.display());
    assert!(archive.is_file(), "no {}: tools/archive makes it", archive.display());
    println!("cargo::rustc-link-search=native={}", folder.display());
    println!("cargo::rustc-link-lib=static=c_timed");
}
