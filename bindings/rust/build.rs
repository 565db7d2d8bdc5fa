//! Finds the proved archive, which `tools/archive` writes to target/staticlib of the repository. Another folder that has
//! it can be named by the variable WORMSTRAND_LIB.

use std::env;
use std::path::{Path, PathBuf};

const ARCHIVE: &str = "libwormstrand.a";

fn main() {
    println!("cargo:rerun-if-env-changed=WORMSTRAND_LIB");
    let machine = env::var("CARGO_CFG_TARGET_ARCH").expect("cargo says what machine it builds for");
    if machine != "x86_64" {
        panic!(
            "{} is x86-64 code and cannot be linked for {}: build with --target x86_64-unknown-linux-gnu",
            ARCHIVE, machine
        );
    }
    let folder = folder();
    let archive = folder.join(ARCHIVE);
    println!("cargo:rerun-if-changed={}", archive.display());
    if !archive.is_file() {
        panic!(
            "{} is missing: run `tools/archive` in the repository first",
            archive.display()
        );
    }
    println!("cargo:rustc-link-search=native={}", folder.display());
    println!("cargo:rustc-link-lib=static=wormstrand");
}

fn folder() -> PathBuf {
    match env::var_os("WORMSTRAND_LIB") {
        Some(folder) => PathBuf::from(folder),
        None => {
            Path::new(&env::var_os("CARGO_MANIFEST_DIR").expect("cargo says where the crate is"))
                .join("../../target/staticlib")
        }
    }
}
