//! Links the engine: the static libraries that `examples/build kernel twin_exports` makes, or those
//! in the folder that ENGINE names.
use std::env;
use std::path::PathBuf;

fn main() {
    let here = PathBuf::from(env::var("CARGO_MANIFEST_DIR").unwrap());
    let folder = env::var("ENGINE").map(PathBuf::from).unwrap_or_else(|_| here.join("../target/staticlib"));
    println!("cargo:rerun-if-env-changed=ENGINE");
    for library in ["libkernel.a", "libtwin_exports.a"] {
        println!("cargo:rerun-if-changed={}", folder.join(library).display());
    }
    println!("cargo:rustc-link-search=native={}", folder.display());
}
