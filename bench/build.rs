//! Where the proved library's archive is.

fn main() {
    let folder = concat!(env!("CARGO_MANIFEST_DIR"), "/../crates/export/out");
    println!("cargo:rustc-link-search=native={folder}");
    println!("cargo:rerun-if-changed={folder}/libexport.a");
}
