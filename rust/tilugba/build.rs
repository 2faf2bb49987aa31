//! Links the proved library, which `tools/build-library` puts into the folder `built` of the
//! repository, or which lies in the folder that `TILUGBA_LIB_DIR` names.
use std::{env, path::PathBuf, process::exit};

fn main() {
    println!("cargo:rerun-if-env-changed=TILUGBA_LIB_DIR");
    let own = || PathBuf::from(env!("CARGO_MANIFEST_DIR")).join("../../built");
    let folder = env::var_os("TILUGBA_LIB_DIR").map_or_else(own, PathBuf::from);
    let archive = folder.join("libtilugba.a");
    if !archive.is_file() {
        eprintln!(
            "{} is not there: tools/build-library makes it, or set TILUGBA_LIB_DIR to its folder",
            archive.display()
        );
        exit(1);
    }
    println!("cargo:rustc-link-search=native={}", folder.display());
    println!("cargo:rustc-link-lib=static=tilugba");
    println!("cargo:rerun-if-changed={}", archive.display());
}
