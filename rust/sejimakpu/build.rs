//! Finds the proved archive: in SEJIMAKPU_LIB_DIR where that is set, else where `./make_proved library` puts it.
use std::{env, path::PathBuf};

fn main() {
    println!("cargo:rerun-if-env-changed=SEJIMAKPU_LIB_DIR");
    let folder = match env::var_os("SEJIMAKPU_LIB_DIR") {
        Some(folder) => PathBuf::from(folder),
        None => PathBuf::from(env::var_os("CARGO_MANIFEST_DIR").unwrap()).join("../../target/staticlib"),
    };
    let archive = folder.join("libsejimakpu.a");
    println!("cargo:rerun-if-changed={}", archive.display());
    if !archive.is_file() {
        panic!("no {}: run `./make_proved library` first, or set SEJIMAKPU_LIB_DIR", archive.display());
    }
    println!("cargo:rustc-link-search=native={}", folder.display());
    println!("cargo:rustc-link-lib=static=sejimakpu");
    // for who depends on this crate and names the archive
    println!("cargo:archive={}", archive.display());
}
