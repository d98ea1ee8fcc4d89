//! Links the proved book's static library, which `tools/build foreign_steps_c` makes.

fn main() {
    let folder = std::path::Path::new(&std::env::var("CARGO_MANIFEST_DIR").expect("cargo sets it")).join("../target/staticlib");
    println!("cargo:rustc-link-search=native={}", folder.display());
    println!("cargo:rustc-link-lib=static=foreign_steps");
    println!("cargo:rerun-if-changed={}", folder.join("libforeign_steps.a").display());
    println!("cargo:rerun-if-changed=build.rs");
}
