//! Links target/staticlib/libcapi.a of the repository, and has scripts/built.sh make it where it is missing.
use std::path::Path;
use std::process::Command;

fn main() {
    let root = Path::new(env!("CARGO_MANIFEST_DIR")).join("../..");
    let folder = root.join("target/staticlib");
    let archive = folder.join("libcapi.a");
    if !archive.exists() {
        let made = Command::new("bash").arg("scripts/built.sh").current_dir(&root).status();
        assert!(matches!(made, Ok(s) if s.success()), "scripts/built.sh failed in {}", root.display());
    }
    println!("cargo:rerun-if-changed={}", archive.display());
    println!("cargo:rustc-link-search=native={}", folder.display());
    println!("cargo:rustc-link-lib=static=capi");
}
