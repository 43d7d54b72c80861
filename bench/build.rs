//! Says where the product's static library is: in the repository, or in the folder
//! that TUULVESKI_LIB names. `src/product.rs` links it.

fn main() {
    let repository = concat!(env!("CARGO_MANIFEST_DIR"), "/../target/staticlib");
    let folder = std::env::var("TUULVESKI_LIB").unwrap_or(repository.to_string());
    println!("cargo:rerun-if-env-changed=TUULVESKI_LIB");
    println!("cargo:rerun-if-changed={folder}/libtuulveski.a");
    println!("cargo:rustc-link-search=native={folder}");
}
