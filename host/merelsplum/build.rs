//! Links the proved library, `libcapi.a`: from the folder `MERELSPLUM_LIB_DIR`, or from where `tools/build capi`
//! writes it.

use std::env;
use std::path::{Path, PathBuf};

fn main() {
    let repository = Path::new(env!("CARGO_MANIFEST_DIR")).join("../..");
    let folder = env::var_os("MERELSPLUM_LIB_DIR").map_or_else(|| repository.join("target/staticlib"), PathBuf::from);
    let library = folder.join("libcapi.a");
    if !library.exists() {
        println!("cargo::error=run `tools/build capi`: {} is not there", library.display());
        return;
    }
    println!("cargo:rerun-if-env-changed=MERELSPLUM_LIB_DIR");
    println!("cargo:rerun-if-changed={}", library.display());
    println!("cargo:rustc-link-search=native={}", folder.display());
    println!("cargo:rustc-link-lib=static=capi");
}
