//! Links the proved reader's static library, which tools/library writes; or another folder's, which LUTEMETEOR_LIBRARY names.

use std::path::Path;

fn main() {
    println!("cargo:rerun-if-env-changed=LUTEMETEOR_LIBRARY");
    let folder = std::env::var("LUTEMETEOR_LIBRARY").unwrap_or("../target".into());
    let library = Path::new(env!("CARGO_MANIFEST_DIR")).join(folder);
    println!("cargo:rustc-link-search=native={}", library.display());
    println!("cargo:rustc-link-lib=static=stil");
    println!("cargo:rerun-if-changed={}", library.join("libstil.a").display());
}
