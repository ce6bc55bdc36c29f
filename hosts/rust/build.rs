//! Links the proved archive, `libadditional_pension.a`.

use std::env;
use std::path::PathBuf;

/// Names the archive's folder, where it is not the one that `hosts/build` writes to.
const FOLDER: &str = "ADDITIONAL_PENSION_LIB";

fn main() {
    let package = PathBuf::from(env::var_os("CARGO_MANIFEST_DIR").expect("cargo names the package's folder"));
    let folder = env::var_os(FOLDER).map_or_else(|| package.join("../../target/staticlib"), PathBuf::from);
    let archive = folder.join("libadditional_pension.a");
    println!("cargo::rerun-if-env-changed={FOLDER}");
    println!("cargo::rerun-if-changed={}", archive.display());
    if !archive.is_file() {
        println!(
            "cargo::error=There is no archive {}: write it with 'hosts/build archive', or name its folder in {FOLDER}.",
            archive.display()
        );
        return;
    }
    println!("cargo::rustc-link-search=native={}", folder.display());
    println!("cargo::rustc-link-lib=static=additional_pension");
}
