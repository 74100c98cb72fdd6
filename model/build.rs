//! Links `libargo.a` from `ARGO_LIB_DIR` when a part of the C interface is asked for.

use std::env;

fn main() {
    println!("cargo:rerun-if-changed=build.rs");
    println!("cargo:rerun-if-env-changed=ARGO_LIB_DIR");
    let parts = ["FFI_CHECK", "FFI_READ", "FFI_WRITE"];
    if parts
        .iter()
        .all(|p| env::var_os(format!("CARGO_FEATURE_{p}")).is_none())
    {
        return;
    }
    let dir = env::var("ARGO_LIB_DIR").expect("set ARGO_LIB_DIR to the folder of libargo.a");
    println!("cargo:rerun-if-changed={dir}/libargo.a");
    println!("cargo:rustc-link-search=native={dir}");
    println!("cargo:rustc-link-lib=static=argo");
    // For what a library with floats may call.
    println!("cargo:rustc-link-lib=m");
}
