//! Links the static libraries that `./build` writes: the controller's calls, Replay, and import.
use std::path::Path;

fn main() {
    let root = Path::new(env!("CARGO_MANIFEST_DIR")).parent().expect("the tests stand in the repository");
    let folder = root.join("target/staticlib");
    println!("cargo:rustc-link-search=native={}", folder.display());
    for name in ["exports", "replays", "importer"] {
        let archive = folder.join(format!("lib{name}.a"));
        assert!(archive.exists(), "no {}: run `./build {name}` first", archive.display());
        println!("cargo:rustc-link-lib=static={name}");
        println!("cargo:rerun-if-changed={}", archive.display());
    }
}
