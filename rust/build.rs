//! Links the archive of the proved code, which `rt lib` in crates/lamporchid writes and `rust/run` puts into target/staticlib.

fn main() {
    let here = std::env::var("CARGO_MANIFEST_DIR").expect("cargo names the folder");
    let archives = format!("{}/../target/staticlib", here);
    println!("cargo:rerun-if-changed={}/liblamporchid.a", archives);
    println!("cargo:rustc-link-search=native={}", archives);
}
