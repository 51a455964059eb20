//! Finds libamo_c.a and liblibc_c.a, and has them linked.
//!
//! They are in the folder that the environment variable AMO_LIB_DIR names, or else in the folder
//! `lib` of this crate, where a packed crate has them.

use std::env;
use std::path::PathBuf;
use std::process::exit;

const ARCHIVES: [&str; 2] = ["amo_c", "libc_c"];

fn main() {
    let own = PathBuf::from(env::var_os("CARGO_MANIFEST_DIR").unwrap_or_default()).join("lib");
    let folder = env::var_os("AMO_LIB_DIR").map_or(own, PathBuf::from);
    println!("cargo:rerun-if-env-changed=AMO_LIB_DIR");
    for name in ARCHIVES {
        let path = folder.join(format!("lib{name}.a"));
        println!("cargo:rerun-if-changed={}", path.display());
        if !path.is_file() {
            eprintln!(
                "amo-sys: `{}`: it is missing; name the folder that has it in AMO_LIB_DIR, or take \
                 the crates of a release, which have it",
                path.display()
            );
            exit(1);
        }
        println!("cargo:rustc-link-lib=static={name}");
    }
    println!("cargo:rustc-link-search=native={}", folder.display());
}
