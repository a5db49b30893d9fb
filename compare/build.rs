//! Links libboard.a, from the folder named by BOARD_LIB, else from ../target/staticlib.

use std::env;
use std::path::PathBuf;

fn main() {
    println!("cargo:rerun-if-changed=build.rs");
    println!("cargo:rerun-if-env-changed=BOARD_LIB");
    let here = PathBuf::from(env::var_os("CARGO_MANIFEST_DIR").unwrap_or_default());
    let folder = env::var("BOARD_LIB").unwrap_or_else(|_| String::from("../target/staticlib"));
    let folder = here.join(folder);
    println!("cargo:rustc-link-search=native={}", folder.display());
    println!("cargo:rustc-link-lib=static=board");
    println!("cargo:rerun-if-changed={}", folder.join("libboard.a").display());
}
