//! With the feature `linked`: links the archive of support's engine, target/staticlib/libsupport.a of the project, and stops where it has not been built
//! yet. The archive of the adapter's entries is linked by uplink/.

use std::env;
use std::path::Path;
use std::process::exit;

fn main() {
    println!("cargo:rerun-if-changed=build.rs");
    if env::var_os("CARGO_FEATURE_LINKED").is_none() {
        return;
    }
    let here = env::var("CARGO_MANIFEST_DIR").expect("cargo gives the folder of the package");
    let folder = Path::new(&here).join("../target/staticlib");
    let library = folder.join("libsupport.a");
    println!("cargo:rerun-if-changed={}", library.display());
    if !library.exists() {
        eprintln!("target/staticlib/libsupport.a is missing. In the project's folder, run: bin/archive support");
        exit(1);
    }
    println!("cargo:rustc-link-search=native={}", folder.display());
    println!("cargo:rustc-link-lib=static=support");
}
