//! Links libloitsupar.a, from the folder that LOITSUPAR_LIB names or from where host/build puts it.

use std::{env, path::PathBuf};

fn main() {
    println!("cargo:rerun-if-env-changed=LOITSUPAR_LIB");
    let folder = match env::var_os("LOITSUPAR_LIB") {
        Some(folder) => PathBuf::from(folder),
        None => PathBuf::from(env::var_os("CARGO_MANIFEST_DIR").expect("Cargo says where the crate is")).join("../../target/host"),
    };
    println!("cargo:rerun-if-changed={}", folder.join("libloitsupar.a").display());
    println!("cargo:rustc-link-search=native={}", folder.display());
    println!("cargo:rustc-link-lib=static=loitsupar");
}
