//! Links the static library of the C entries, target/staticlib/libdriver.a of the project, and stops where it has not been built yet.

use std::env;
use std::path::Path;
use std::process::exit;

fn main() {
    println!("cargo:rerun-if-changed=build.rs");
    let here = env::var("CARGO_MANIFEST_DIR").expect("cargo gives the folder of the package");
    let folder = Path::new(&here).join("../../target/staticlib");
    let library = folder.join("libdriver.a");
    println!("cargo:rerun-if-changed={}", library.display());
    if !library.exists() {
        eprintln!("target/staticlib/libdriver.a is missing. In the project's folder, run: bin/archive driver");
        exit(1);
    }
    println!("cargo:rustc-link-search=native={}", folder.display());
    println!("cargo:rustc-link-lib=static=driver");
}
