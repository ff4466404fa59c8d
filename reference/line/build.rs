// Links the archive that tests/support/archive makes.
use std::env;
use std::path::PathBuf;

fn main() {
    let here = PathBuf::from(env::var("CARGO_MANIFEST_DIR").unwrap());
    let archive = here.join("../../target/staticlib");
    println!("cargo:rustc-link-search=native={}", archive.display());
    println!("cargo:rustc-link-lib=static=line");
    println!("cargo:rerun-if-changed={}", archive.join("libline.a").display());
}
