//! The static archive libdalelead_c.a, from the folder that DALELEAD_LIB names, or from where `rt lib` in crates/dalelead_c puts it.

use std::env;
use std::fs;

fn main() {
    println!("cargo:rerun-if-env-changed=DALELEAD_LIB");
    let folder = env::var("DALELEAD_LIB").unwrap_or_else(|_| "../crates/dalelead_c/out".to_string());
    let folder = fs::canonicalize(&folder).unwrap_or_else(|e| panic!("no folder {folder} with libdalelead_c.a: {e}"));
    let folder = folder.display();
    println!("cargo:rerun-if-changed={folder}/libdalelead_c.a");
    println!("cargo:rustc-link-search=native={folder}");
    println!("cargo:rustc-link-lib=static=dalelead_c");
}
