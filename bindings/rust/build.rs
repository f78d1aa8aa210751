//! Links the archive of the proved library. It is looked for in target/staticlib of the repository, or in the folder that COBLESKEG_ARCHIVE_DIR names.

use std::env;
use std::path::{Path, PathBuf};

const ARCHIVE: &str = "libcobleskeg_c.a";

fn main() {
    println!("cargo:rerun-if-env-changed=COBLESKEG_ARCHIVE_DIR");
    let folder = folder();
    let archive = folder.join(ARCHIVE);
    println!("cargo:rerun-if-changed={}", archive.display());
    if !archive.is_file() {
        eprintln!("{} is not there: `python3 tools/build.py cobleskeg_c` makes it; COBLESKEG_ARCHIVE_DIR names another folder", archive.display());
        std::process::exit(1);
    }
    println!("cargo:rustc-link-search=native={}", folder.display());
    println!("cargo:rustc-link-lib=static=cobleskeg_c");
}

/// A relative folder counts from this crate, where cargo runs this program; the compiler runs elsewhere, so it is told the whole path.
fn folder() -> PathBuf {
    let named = env::var_os("COBLESKEG_ARCHIVE_DIR").map(PathBuf::from);
    let folder = named.unwrap_or_else(|| Path::new("../../target/staticlib").to_path_buf());
    folder.canonicalize().unwrap_or(folder)
}
