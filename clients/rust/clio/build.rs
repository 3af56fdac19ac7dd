//! Links the client library: `libclio_c.a`, in the folder that `CLIO_LIB` names, or where the repository builds it.
use std::env;
use std::path::{Path, PathBuf};

/// The static library, and beside it the three calls to the heap that it needs, where it doesn't have them in it.
const ARCHIVES: [&str; 2] = ["clio_c", "libc_c"];

fn main() {
    println!("cargo:rerun-if-env-changed=CLIO_LIB");
    let built = Path::new(env!("CARGO_MANIFEST_DIR")).join("../../../crates/clio_c/out");
    let folder = env::var_os("CLIO_LIB").map_or(built, PathBuf::from);
    assert!(folder.join("libclio_c.a").exists(), "no libclio_c.a in {}: CLIO_LIB names its folder", folder.display());
    println!("cargo:rustc-link-search=native={}", folder.display());
    for name in ARCHIVES {
        let file = folder.join(format!("lib{name}.a"));
        println!("cargo:rerun-if-changed={}", file.display());
        if file.exists() {
            println!("cargo:rustc-link-lib=static={name}");
        }
    }
}
