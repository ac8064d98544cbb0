//! Links the static library `libbatcher_ffi.a`. `BATCHER_LIB` names it, or the folder that it is in;
//! by default it is where `tools/prove batcher_ffi` builds it.

use std::env::var;
use std::path::{Path, PathBuf, absolute};

fn main() {
    println!("cargo::rerun-if-env-changed=BATCHER_LIB");
    let library = match var("BATCHER_LIB") {
        Ok(named) => PathBuf::from(named),
        Err(_) => Path::new(env!("CARGO_MANIFEST_DIR")).join("../crates/batcher_ffi/out"),
    };
    let is_absolute = library.is_absolute();
    let library = absolute(&library).unwrap_or(library);
    let (folder, file) = if library.extension().is_some_and(|it| it == "a") {
        (library.parent().unwrap_or(&library).to_path_buf(), library)
    } else {
        (library.clone(), library.join("libbatcher_ffi.a"))
    };
    // `cargo check` and `cargo doc` don't link, so it is no error here.
    if !file.is_file() {
        let relative = if is_absolute {
            ""
        } else {
            ", which is relative, and cargo runs this in the crate's folder"
        };
        println!(
            "cargo::warning=no library at {}{relative}: run tools/prove batcher_ffi, or set \
             BATCHER_LIB to an absolute path, of libbatcher_ffi.a or of its folder. Without it \
             nothing is linked.",
            file.display()
        );
    }
    println!("cargo::rerun-if-changed={}", file.display());
    println!("cargo::rustc-link-search=native={}", folder.display());
    println!("cargo::rustc-link-lib=static=batcher_ffi");
}
