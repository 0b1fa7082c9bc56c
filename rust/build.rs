//! Links the static library that `./library` writes.

use std::path::Path;

fn main() {
    let package = std::env::var_os("CARGO_MANIFEST_DIR").expect("cargo names the package's folder");
    let root = Path::new(&package).parent().expect("the package stands in the repository");
    let folder = root.join("build");
    let library = folder.join("libzohapy.a");
    assert!(library.exists(), "{} is missing: run ./library first", library.display());
    println!("cargo::rerun-if-changed={}", library.display());
    println!("cargo::rustc-link-search=native={}", folder.display());
    println!("cargo::rustc-link-lib=static=zohapy");
}
