//! Finds the archive: in the folder FSRS6_LIB, or else where `./lib` writes it.

use std::env;
use std::path::{Path, PathBuf};
use std::process::exit;

/// What is delivered is for x86-64, as the kit is. For another processor an archive is looked for in target/native.
fn usual_folder() -> (PathBuf, &'static str) {
    let is_x86_64 = env::var("CARGO_CFG_TARGET_ARCH").as_deref() == Ok("x86_64");
    let (name, advice) = if is_x86_64 { ("lib", "run ./lib first, or") } else { ("native", "compile one for this processor, and") };
    let root = Path::new(env!("CARGO_MANIFEST_DIR")).join("../..");
    (root.join("target").join(name), advice)
}

fn main() {
    println!("cargo:rerun-if-env-changed=FSRS6_LIB");
    let (usual, advice) = usual_folder();
    let folder = env::var_os("FSRS6_LIB").map_or(usual, PathBuf::from);
    let Ok(archive) = folder.join("libfsrs6.a").canonicalize() else {
        eprintln!("no libfsrs6.a in {}: {advice} set FSRS6_LIB to its folder", folder.display());
        exit(1);
    };
    println!("cargo:rerun-if-changed={}", archive.display());
    println!("cargo:rustc-link-search=native={}", archive.parent().unwrap_or(&folder).display());
    println!("cargo:rustc-link-lib=static=fsrs6");
    println!("cargo:rustc-env=FSRS6_ARCHIVE={}", archive.display()); // examples/fit.rs tells it
}
