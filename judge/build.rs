//! Links the archive of the proved code, which `judge/run` builds first.

fn main() {
    let here = std::env::var("CARGO_MANIFEST_DIR").expect("cargo names the folder");
    let archives = format!("{here}/../target/staticlib");
    println!("cargo:rerun-if-changed={archives}/liblamporchid.a");
    println!("cargo:rustc-link-search=native={archives}");
    println!("cargo:rustc-link-lib=static=lamporchid");
}
