//! Links the archives of the proved code, which `bench/run` builds first.

fn main() {
    let here = std::env::var("CARGO_MANIFEST_DIR").expect("cargo names the folder");
    let archives = format!("{here}/../target/staticlib");
    println!("cargo:rustc-link-search=native={archives}");
    for name in ["bench", "lamporchid"] {
        println!("cargo:rerun-if-changed={archives}/lib{name}.a");
        println!("cargo:rustc-link-lib=static={name}");
    }
}
