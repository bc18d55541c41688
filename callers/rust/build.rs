//! Links the static library `libliktrob.a`, which `tools/build_library` of Liktrob's repository makes.

use std::env;
use std::path::PathBuf;

const ARCHIVE: &str = "libliktrob.a";

/// What code for x86-64-v3 may use beside what x86-64-v2 has.
const NEWER: [&str; 8] = ["avx", "avx2", "bmi1", "bmi2", "f16c", "fma", "lzcnt", "movbe"];

/// Whether cargo compiles for processors of the family x86-64-v3, as by `-C target-cpu=native` on one of them.
fn is_for_newer() -> bool {
    let features = env::var("CARGO_CFG_TARGET_FEATURE").unwrap_or_default();
    NEWER.iter().all(|newer| features.split(',').any(|feature| feature == *newer))
}

/// The folder that `LIKTROB_LIB` names, or else `../lib`, where the archives lie beside this crate in `dist/`. The place
/// of the crate is read at run time: cargo may keep the script of a crate at another place.
fn folder_of_archive() -> Option<PathBuf> {
    let beside = PathBuf::from(env::var_os("CARGO_MANIFEST_DIR")?).join("../lib");
    let folders = match env::var_os("LIKTROB_LIB").filter(|named| !named.is_empty()) {
        Some(named) => vec![PathBuf::from(named)],
        None if is_for_newer() => vec![beside.join("x86-64-v3"), beside],
        None => vec![beside],
    };
    folders.into_iter().find(|folder| folder.join(ARCHIVE).is_file())
}

fn main() {
    println!("cargo::rerun-if-env-changed=LIKTROB_LIB");
    println!("cargo::rerun-if-env-changed=CARGO_MANIFEST_DIR");
    println!("cargo::rustc-check-cfg=cfg(docsrs)");
    // Documents are made without the archive.
    if env::var_os("DOCS_RS").is_some() {
        return;
    }
    let Some(folder) = folder_of_archive() else {
        println!(
            "cargo::error=Set LIKTROB_LIB to the absolute path of the folder that holds {ARCHIVE}, which \
             tools/build_library of Liktrob's repository makes as dist/lib."
        );
        return;
    };
    println!("cargo::rerun-if-changed={}", folder.join(ARCHIVE).display());
    println!("cargo::rustc-link-search=native={}", folder.display());
    println!("cargo::rustc-link-lib=static=liktrob");
}
