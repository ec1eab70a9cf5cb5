//! Links the engine's archive, which `tests/built ring_c` puts there.

fn main() {
    let root = concat!(env!("CARGO_MANIFEST_DIR"), "/../..");
    let folder = format!("{root}/target/staticlib");
    println!("cargo:rerun-if-changed={folder}/libring_c.a");
    println!("cargo:rustc-link-search=native={folder}");
    println!("cargo:rustc-link-lib=static=ring_c");
}
