//! Links the learner's single parts: the archive that `interface/library parts` leaves. Crate `ostrovuc` links the port.

use std::env;
use std::path::Path;

fn main() {
    let here = env::var("CARGO_MANIFEST_DIR").expect("cargo says where the package is");
    let folder = Path::new(&here).join("../target/staticlib");
    println!(
        "cargo::rerun-if-changed={}",
        folder.join("libparts.a").display()
    );
    println!("cargo::rustc-link-search=native={}", folder.display());
    println!("cargo::rustc-link-lib=static=parts");
}
