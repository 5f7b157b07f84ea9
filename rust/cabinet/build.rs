//! Finds the proved static library: in CABINET_LIB_DIR, else where `make
//! cabinet` puts it.

use std::env;
use std::path::PathBuf;
use std::process::exit;

fn main() {
    println!("cargo:rerun-if-env-changed=CABINET_LIB_DIR");
    println!("cargo:rerun-if-changed=build.rs");
    let folder = match env::var_os("CABINET_LIB_DIR") {
        Some(folder) => PathBuf::from(folder),
        None => PathBuf::from(env!("CARGO_MANIFEST_DIR")).join("../../target/staticlib"),
    };
    let library = folder.join("libcabinet.a");
    println!("cargo:rerun-if-changed={}", library.display());
    if !library.is_file() {
        eprintln!("cabinet: there is no {}", library.display());
        eprintln!("cabinet: run `make cabinet` at the top of the repository, which proves and builds it,");
        eprintln!("cabinet: or name its folder in CABINET_LIB_DIR (a full path)");
        exit(1);
    }
    let folder = folder.canonicalize().expect("the folder of a file that is there");
    println!("cargo:rustc-link-search=native={}", folder.display());
    println!("cargo:rustc-link-lib=static=cabinet");
}
