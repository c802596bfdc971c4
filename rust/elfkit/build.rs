//! Links the proved core, libelfkit.a, and the kit's small part in C below it, liblibc_c.a.
//!
//! Both are in the folder ELFKIT_LIB_DIR, `build` of the checkout where it is not set; `make lib`
//! builds the one and `make test-rust` puts the other beside it. Where ELFKIT_LIB_DIR is set and
//! empty nothing is linked, which is enough for `cargo check`, `cargo clippy` and `cargo doc`.

use std::env;
use std::path::{Path, PathBuf};
use std::process::exit;

const LIBRARIES: [&str; 2] = ["elfkit", "libc_c"];

fn main() {
    println!("cargo:rerun-if-changed=build.rs");
    println!("cargo:rerun-if-env-changed=ELFKIT_LIB_DIR");
    let folder = match env::var_os("ELFKIT_LIB_DIR") {
        Some(told) if told.is_empty() => return,
        Some(told) => PathBuf::from(told),
        None => Path::new(env!("CARGO_MANIFEST_DIR")).join("../../build"),
    };
    let mut is_missing = false;
    for library in LIBRARIES {
        let file = folder.join(format!("lib{library}.a"));
        println!("cargo:rerun-if-changed={}", file.display());
        if !file.is_file() {
            is_missing = true;
            eprintln!("elfkit: there is no {}", file.display());
        }
    }
    if is_missing {
        eprintln!(
            "elfkit: `make rust-lib` at the top of the checkout builds both libraries, and \
             ELFKIT_LIB_DIR names another folder that has them"
        );
        exit(1);
    }
    println!("cargo:rustc-link-search=native={}", folder.display());
    for library in LIBRARIES {
        println!("cargo:rustc-link-lib=static={library}");
    }
}
