//! Links `libplumbsorrel.a` from the folder that `PLUMBSORREL_LIB_DIR` names, else from `target/library` of the repository.

use std::env;
use std::path::{Path, PathBuf};

fn main() {
    println!("cargo:rerun-if-env-changed=PLUMBSORREL_LIB_DIR");
    let here = env::var("CARGO_MANIFEST_DIR").expect("cargo names the package's folder");
    let default = || Path::new(&here).join("../../target/library");
    let folder = env::var_os("PLUMBSORREL_LIB_DIR").map_or_else(default, PathBuf::from);
    let archive = folder.join("libplumbsorrel.a");
    println!("cargo:rerun-if-changed={}", archive.display());
    let Ok(archive) = archive.canonicalize() else {
        panic!("there is no {}: run ./plumbsorrel library, or set PLUMBSORREL_LIB_DIR", archive.display());
    };
    let folder = archive.parent().expect("an archive stands in a folder");
    println!("cargo:rustc-link-search=native={}", folder.display());
    println!("cargo:rustc-link-lib=static=plumbsorrel");
}
