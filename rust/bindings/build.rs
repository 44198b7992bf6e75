//! Links the proved library, which `make lib` puts into `target/staticlib` of the repository.

use std::path::Path;

fn main() {
    let here = env!("CARGO_MANIFEST_DIR");
    let folder = Path::new(here).join("../../target/staticlib");
    println!("cargo::rustc-link-search=native={}", folder.display());
    println!("cargo::rustc-link-lib=static=capi");
    println!(
        "cargo::rerun-if-changed={}",
        folder.join("libcapi.a").display()
    );
}
