//! Links the static archives of the library under test: `libharness.a` and `libconsole.a`.

use std::env;
use std::path::PathBuf;

fn main() {
    let manifest = PathBuf::from(env::var_os("CARGO_MANIFEST_DIR").expect("set by cargo"));
    let folder = match env::var_os("SETUPBOOK_ARCHIVES") {
        Some(folder) => manifest.join(folder),
        None => manifest.join("../target/staticlib"),
    };
    println!("cargo::rerun-if-env-changed=SETUPBOOK_ARCHIVES");
    println!("cargo::rustc-link-search=native={}", folder.display());
    for name in ["harness", "console"] {
        let archive = folder.join(format!("lib{name}.a"));
        println!("cargo::rerun-if-changed={}", archive.display());
        if !archive.is_file() {
            panic!(
                "no archive {}: build it first or set SETUPBOOK_ARCHIVES",
                archive.display()
            );
        }
        println!("cargo::rustc-link-lib=static={name}");
    }
}
