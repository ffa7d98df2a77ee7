//! Finds libnet119.a: in the directory that NET119_LIB names, or where `tools/staticlib net119` leaves it.

use std::env;
use std::path::PathBuf;

fn main() {
    let found = env::var_os("NET119_LIB")
        .map(PathBuf::from)
        .unwrap_or_else(|| {
            let here =
                env::var_os("CARGO_MANIFEST_DIR").expect("cargo names the manifest's directory");
            PathBuf::from(here).join("../../target/staticlib")
        });
    println!("cargo:rerun-if-env-changed=NET119_LIB");
    println!(
        "cargo:rerun-if-changed={}",
        found.join("libnet119.a").display()
    );
    println!("cargo:rustc-link-search=native={}", found.display());
    println!("cargo:rustc-link-lib=static=net119");
}
