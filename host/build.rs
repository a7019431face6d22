//! Links the proved library, which `rt lib` writes in the folder `crates/notice_c` beside this one.

use std::path::Path;

fn main() {
    let here = std::env::var("CARGO_MANIFEST_DIR").expect("cargo names the package's folder");
    let folder = Path::new(&here).join("../crates/notice_c/out");
    let library = folder.join("libnotice_c.a");
    println!("cargo:rerun-if-changed={}", library.display());
    println!("cargo:rustc-link-search=native={}", folder.display());
    println!("cargo:rustc-link-lib=static=notice_c");
    if !library.exists() {
        println!("cargo:warning=no libnotice_c.a: run `rt lib` in crates/notice_c first");
    }
}
