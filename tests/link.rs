// Links a static library; each package's build.rs includes this. EREMOTHYN_LIB_DIR, an absolute path, names another directory
// to take it from.

use std::env;
use std::path::PathBuf;

fn link(name: &str) {
    println!("cargo::rerun-if-env-changed=EREMOTHYN_LIB_DIR");
    println!("cargo::rerun-if-changed=../link.rs");
    let dir = match env::var_os("EREMOTHYN_LIB_DIR") {
        Some(dir) => PathBuf::from(dir),
        None => {
            let manifest_dir = env::var_os("CARGO_MANIFEST_DIR").expect("cargo sets it");
            PathBuf::from(manifest_dir).join("../../target/staticlib")
        }
    };
    let archive = dir.join(format!("lib{name}.a"));
    println!("cargo::rerun-if-changed={}", archive.display());
    if !archive.is_file() {
        println!(
            "cargo::error={} isn't there: build it with `make target/staticlib/lib{name}.a`",
            archive.display()
        );
        return;
    }
    println!("cargo::rustc-link-search=native={}", dir.display());
    println!("cargo::rustc-link-lib=static={name}");
}
