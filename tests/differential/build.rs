//! Links the engine's archive, which `tests/built ring_c` puts below the repository's target
//! folder.

use std::env;

fn main() {
    let here = env::var("CARGO_MANIFEST_DIR").expect("cargo names the package's folder");
    let folder = format!("{here}/../../target/staticlib");
    println!("cargo:rustc-link-search=native={folder}");
    println!("cargo:rustc-link-lib=static=ring_c");
    // A new archive must be linked anew, or an old engine would be tested.
    println!("cargo:rerun-if-changed={folder}/libring_c.a");
    println!("cargo:rerun-if-changed=build.rs");
}
