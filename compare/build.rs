//! Links the proved library; CUNGKALISA_LIBRARY names another place than where `tools/library` writes it.

use std::env;
use std::path::PathBuf;

fn main() {
    let here = PathBuf::from(env::var("CARGO_MANIFEST_DIR").unwrap());
    let built = here.join("../target/staticlib/libfirmware.a");
    let library = env::var("CUNGKALISA_LIBRARY").map_or(built, PathBuf::from);
    println!("cargo:rustc-link-search=native={}", library.parent().unwrap().display());
    println!("cargo:rustc-link-lib=static=firmware");
    println!("cargo:rerun-if-changed={}", library.display());
    println!("cargo:rerun-if-env-changed=CUNGKALISA_LIBRARY");
}
