//! Links the proved static library into the comparison program, and into nothing else of this package.

/// Names the archive to the linker, and has the program built anew when the archive changes.
fn main() {
    let package = std::env::var("CARGO_MANIFEST_DIR").expect("cargo names the package's folder");
    let archive = format!("{package}/../target/staticlib/libenkhovrag.a");
    println!("cargo:rerun-if-changed={archive}");
    println!("cargo:rustc-link-arg-bins={archive}");
}
