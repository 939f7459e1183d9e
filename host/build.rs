//! Links the proved library: libmapsforge.a of the folder MAPSFORGE_LIB, else of target/staticlib of the repository.

use std::path::{Path, PathBuf};
use std::{env, process};

fn main() {
    println!("cargo::rerun-if-changed=build.rs");
    println!("cargo::rerun-if-env-changed=MAPSFORGE_LIB");
    // A digest of all that is built from, by which ./mapsforge has it built anew whatever the files' times.
    println!("cargo::rerun-if-env-changed=MAPSFORGE_INPUTS");
    let package =
        PathBuf::from(env::var_os("CARGO_MANIFEST_DIR").expect("cargo gives the package's folder"));
    let folder = match env::var_os("MAPSFORGE_LIB") {
        Some(named) => PathBuf::from(named),
        None => package.join("../target/staticlib"),
    };
    let archive = folder.join("libmapsforge.a");
    println!("cargo::rerun-if-changed={}", archive.display());
    if !Path::new(&archive).is_file() {
        eprintln!(
            "host/build.rs: there is no {}: run host/library in the repository first, or name its folder by MAPSFORGE_LIB",
            archive.display()
        );
        process::exit(1);
    }
    println!("cargo::rustc-link-search=native={}", folder.display());
    println!("cargo::rustc-link-lib=static=mapsforge");
}
