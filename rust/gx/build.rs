//! Tells the program by which kit the library was made that it is linked with; `make lib` writes that beside the library.

use std::path::Path;

fn main() {
    let here = env!("CARGO_MANIFEST_DIR");
    let file = Path::new(here).join("../../target/staticlib/libcapi.kit");
    println!("cargo::rerun-if-changed={}", file.display());
    let kit = std::fs::read_to_string(&file).unwrap_or_default();
    let kit = kit.lines().next().unwrap_or("").trim();
    let kit = if kit.is_empty() {
        "an unknown kit"
    } else {
        kit
    };
    println!("cargo::rustc-env=GX_KIT={kit}");
}
