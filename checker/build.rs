//! Where DALELEAD_LIB names a folder, the static archive libdalelead_c.a in it is linked, and `checker calls` drives it. Without it the
//! checker builds all the same, with its own stand-in only.

use std::env;
use std::fs;

fn main() {
    println!("cargo:rerun-if-env-changed=DALELEAD_LIB");
    println!("cargo:rustc-check-cfg=cfg(dalelead_linked)");
    if let Ok(folder) = env::var("DALELEAD_LIB") {
        let folder = fs::canonicalize(&folder).unwrap_or_else(|e| panic!("DALELEAD_LIB {folder}: {e}"));
        let folder = folder.display();
        println!("cargo:rerun-if-changed={folder}/libdalelead_c.a");
        println!("cargo:rustc-link-search=native={folder}");
        println!("cargo:rustc-link-lib=static=dalelead_c");
        println!("cargo:rustc-cfg=dalelead_linked");
    }
}
