//! Links the archive that `rust/archive.sh` writes: from the folder that SCHAUMTRUHE_ARCHIVE names, or from `target/staticlib` of
//! this repository.
use std::env;
use std::path::PathBuf;

fn main() {
    let here = PathBuf::from(env::var_os("CARGO_MANIFEST_DIR").expect("cargo sets the manifest's folder"));
    let folder = match env::var_os("SCHAUMTRUHE_ARCHIVE") {
        Some(named) => PathBuf::from(named),
        None => here.join("../../target/staticlib"),
    };
    let archive = folder.join("libschaumtruhe_c.a");
    assert!(archive.is_file(), "no {}: `rust/archive.sh` writes it", archive.display());
    println!("cargo:rerun-if-env-changed=SCHAUMTRUHE_ARCHIVE");
    println!("cargo:rerun-if-changed={}", archive.display());
    println!("cargo:rustc-link-search=native={}", folder.display());
    println!("cargo:rustc-link-lib=static=schaumtruhe_c");
}
