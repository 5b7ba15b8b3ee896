//! Links the engine, as `rt lib` builds it in crates/ffi.
use std::path::Path;

fn main() {
    let out = Path::new(env!("CARGO_MANIFEST_DIR")).join("../../crates/ffi/out");
    let library = out.join("libffi.a");
    println!("cargo::rerun-if-changed={}", library.display());
    // The library of this package stands alone; only the program needs the engine.
    println!("cargo::rustc-link-arg-bins={}", library.display());
}
