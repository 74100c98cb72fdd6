//! Links `libargo.a` from `ARGO_LIB_DIR`, or from where `tools/library` puts it in this repository.

use std::env;
use std::path::{Path, PathBuf};

fn main() {
    println!("cargo:rerun-if-changed=build.rs");
    println!("cargo:rerun-if-env-changed=ARGO_LIB_DIR");
    let dir = env::var_os("ARGO_LIB_DIR").map_or_else(in_repository, PathBuf::from);
    let library = dir.join("libargo.a");
    assert!(
        library.is_file(),
        "{} is not there: run `tools/library`, or set ARGO_LIB_DIR to the folder of libargo.a",
        library.display()
    );
    println!("cargo:rerun-if-changed={}", library.display());
    println!("cargo:rustc-link-search=native={}", dir.display());
    println!("cargo:rustc-link-lib=static=argo");
}

fn in_repository() -> PathBuf {
    let here = env::var_os("CARGO_MANIFEST_DIR").expect("cargo sets CARGO_MANIFEST_DIR");
    Path::new(&here).join("../../build")
}
