//! Where the real controller's static libraries lie: in CONTROLLER_LIB_DIR, or
//! in the repository's target/staticlib. The build scripts of all bindings use
//! it.

use std::env;
use std::path::{Path, PathBuf};
use std::process::exit;

/// Links `lib<name>.a`, which must be there.
pub fn link(name: &str) {
    let folder = folder();
    let library = folder.join(format!("lib{}.a", name));
    println!("cargo:rerun-if-env-changed=CONTROLLER_LIB_DIR");
    println!("cargo:rerun-if-changed={}", library.display());
    if !library.exists() {
        eprintln!(
            "{} is missing. The repository's command bin/cases makes it: it proves the controller \
             and builds all libraries. A folder elsewhere is named by CONTROLLER_LIB_DIR.",
            library.display()
        );
        exit(1);
    }
    println!("cargo:rustc-link-search=native={}", folder.display());
    println!("cargo:rustc-link-lib=static={}", name);
}

fn folder() -> PathBuf {
    match env::var_os("CONTROLLER_LIB_DIR") {
        Some(folder) => PathBuf::from(folder),
        None => {
            let mut above = Path::new(env!("CARGO_MANIFEST_DIR")).ancestors();
            let repository = above.nth(2).expect("two folders above this crate");
            repository.join("target/staticlib")
        }
    }
}
