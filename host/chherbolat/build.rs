//! Says where libchherbolat.a is: in the folder RATTLE_LIB_DIR, or where ./library makes it. A new archive causes a new build.
use std::{env, path::PathBuf};

fn main() {
    println!("cargo:rerun-if-env-changed=RATTLE_LIB_DIR");
    let made_here = || PathBuf::from(env!("CARGO_MANIFEST_DIR")).join("../../target");
    let folder = env::var_os("RATTLE_LIB_DIR").map_or_else(made_here, PathBuf::from);
    println!("cargo:rustc-link-search=native={}", folder.display());
    println!("cargo:rerun-if-changed={}", folder.join("libchherbolat.a").display());
}
