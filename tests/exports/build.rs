//! Links the static library of the exports, which `tests/library` builds, into the programs that call them.

fn main() {
    let here = std::env::var("CARGO_MANIFEST_DIR").expect("cargo names the package's folder");
    let library = format!("{here}/../../target/staticlib");
    println!("cargo:rustc-link-search=native={library}");
    println!("cargo:rustc-link-lib=static:-bundle=desk");
    println!("cargo:rerun-if-changed={library}/libdesk.a");
}
