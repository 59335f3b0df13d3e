//! Links the proved static library, which `./build vakrhildo` writes. VAKRHILDO_LIB names another folder.
use std::env;
use std::path::PathBuf;

fn main() {
    let here = PathBuf::from(env::var("CARGO_MANIFEST_DIR").unwrap());
    let folder =
        env::var("VAKRHILDO_LIB").map_or(here.join("../../target/staticlib"), PathBuf::from);
    let library = folder.join("libvakrhildo.a");
    assert!(
        library.exists(),
        "{} is missing: run `./build vakrhildo` first",
        library.display()
    );
    println!("cargo:rustc-link-search=native={}", folder.display());
    println!("cargo:rustc-link-lib=static=vakrhildo");
    println!("cargo:rerun-if-changed={}", library.display());
    println!("cargo:rerun-if-env-changed=VAKRHILDO_LIB");
}
