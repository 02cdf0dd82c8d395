//! Links the static library that `tools/build` writes.

fn main() {
    let root = std::env::var("CARGO_MANIFEST_DIR").expect("cargo says where the project stands");
    let folder = format!("{root}/../../target/staticlib");
    println!("cargo:rustc-link-search=native={folder}");
    println!("cargo:rustc-link-lib=static=velvetshelf");
    println!("cargo:rerun-if-changed={folder}/libvelvetshelf.a");
}
