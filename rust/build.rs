//! Where a feature calls for it, links libglouds.a from the folder named by GLOUDS_LIB_DIR, or else from
//! ../crates/glouds/out; a relative folder is taken from this package.

use std::env;
use std::path::PathBuf;

fn main() {
    let linked = ["PACK", "CHECK", "UNPACK", "ASK"];
    if !linked
        .iter()
        .any(|f| env::var_os(format!("CARGO_FEATURE_{f}")).is_some())
    {
        return;
    }
    let package = PathBuf::from(env::var_os("CARGO_MANIFEST_DIR").expect("run by cargo"));
    let named = env::var_os("GLOUDS_LIB_DIR").unwrap_or_else(|| "../crates/glouds/out".into());
    let folder = package.join(named);
    println!("cargo:rerun-if-env-changed=GLOUDS_LIB_DIR");
    println!(
        "cargo:rerun-if-changed={}",
        folder.join("libglouds.a").display()
    );
    println!("cargo:rustc-link-search=native={}", folder.display());
    println!("cargo:rustc-link-lib=static=glouds");
    // For tests and programs that look at the library itself.
    println!(
        "cargo:rustc-env=GLOUDS_LIB={}",
        folder.join("libglouds.a").display()
    );
}
