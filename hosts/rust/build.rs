//! Links the proved archive, crates/wilbroged/out/libwilbroged.a below the repository's root.
use std::path::Path;

fn main() {
    let root = Path::new(env!("CARGO_MANIFEST_DIR")).join("../..");
    let folder = root.join("crates/wilbroged/out");
    let archive = folder.join("libwilbroged.a");
    println!("cargo::rerun-if-changed={}", archive.display());
    if !archive.is_file() {
        println!("cargo::error={} is missing: run `rt lib --cpu x86-64` in crates/wilbroged first", archive.display());
        return;
    }
    println!("cargo::rustc-link-search=native={}", folder.display());
    println!("cargo::rustc-link-lib=static=wilbroged");
}
