//! Finds the static library: in the folder LUCERNETICK_ARCHIVE, or beside this crate or the crate
//! `lucernetick`, or in the repository, where `make library` builds it. Without it the build ends
//! with a sentence.

use std::env;
use std::path::{Path, PathBuf};
use std::process;

const LIBRARY: &str = "liblucernetick.a";

fn main() {
    println!("cargo:rerun-if-env-changed=LUCERNETICK_ARCHIVE");
    let folder = check_target().and_then(|()| find()).unwrap_or_else(|why| {
        eprintln!("lucernetick: {}", why);
        process::exit(1);
    });
    println!("cargo:rerun-if-changed={}", folder.join(LIBRARY).display());
    println!("cargo:rustc-link-search=native={}", folder.display());
    println!("cargo:rustc-link-lib=static=lucernetick");
}

fn check_target() -> Result<(), String> {
    let target = env::var("TARGET").unwrap_or_default();
    if target.starts_with("x86_64-") && target.contains("-linux-") {
        return Ok(());
    }
    Err(format!("the library is only for Linux on x86_64, and the target is {}", target))
}

/// The folder this many levels above.
fn above(folder: &Path, levels: usize) -> PathBuf {
    folder.ancestors().nth(levels).unwrap_or(folder).to_path_buf()
}

/// The folder with the library.
fn find() -> Result<PathBuf, String> {
    let beside = Path::new(env!("CARGO_MANIFEST_DIR"));
    let (places, advice) = match env::var_os("LUCERNETICK_ARCHIVE") {
        Some(folder) => (vec![PathBuf::from(folder)], "LUCERNETICK_ARCHIVE must be its folder"),
        None => (
            vec![beside.to_path_buf(), above(beside, 1), above(beside, 3).join("out")],
            "In the repository `make library` builds it; or set LUCERNETICK_ARCHIVE to its folder",
        ),
    };
    match places.iter().find(|place| place.join(LIBRARY).is_file()) {
        Some(place) => Ok(place.clone()),
        None => {
            let looked: Vec<_> = places.iter().map(|place| place.display().to_string()).collect();
            Err(format!("there is no {} in {}. {}", LIBRARY, looked.join(" or "), advice))
        }
    }
}
