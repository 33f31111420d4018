//! Links the proved reader's static library, which tools/library writes.

use std::path::Path;

fn main() {
    let library = Path::new(env!("CARGO_MANIFEST_DIR")).join("../../target");
    println!("cargo:rustc-link-search=native={}", library.display());
    println!("cargo:rustc-link-lib=static=stil");
    println!("cargo:rerun-if-changed={}", library.join("libstil.a").display());
}
