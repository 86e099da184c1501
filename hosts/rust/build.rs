//! Links the static library `libwormweekly.a`. It is looked for in the folder that `WORMWEEKLY_LIB` names, and nowhere
//! else where that is set; else in `lib` beside this crate (a copied distribution), else in `../out` (the repository,
//! after `tools/hosts`).
use std::env;
use std::path::{Path, PathBuf};

const ARCHIVE: &str = "libwormweekly.a";

fn main() {
    println!("cargo:rerun-if-env-changed=WORMWEEKLY_LIB");
    let own =
        PathBuf::from(env::var("CARGO_MANIFEST_DIR").expect("cargo names the crate's folder"));
    let folders = match env::var("WORMWEEKLY_LIB") {
        // A folder that is named is the only one, so that no other library is linked without a word.
        Ok(named) => vec![PathBuf::from(named)],
        Err(_) => vec![own.join("../lib"), own.join("../out")],
    };
    let found = folders.into_iter().find(|folder| has_archive(folder));
    match found {
        Some(folder) => {
            println!("cargo:rustc-link-search=native={}", folder.display());
            println!("cargo:rustc-link-lib=static=wormweekly");
            println!("cargo:rerun-if-changed={}", folder.join(ARCHIVE).display());
        }
        None => panic!("no {ARCHIVE}: name its folder in WORMWEEKLY_LIB, or run tools/hosts"),
    }
}

fn has_archive(folder: &Path) -> bool {
    folder.join(ARCHIVE).is_file()
}
