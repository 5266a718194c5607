//! Links the static library `relay`, from the folder RELAY_LIB_DIR or else
//! from ../crates/relay/out. A relative folder is taken from bench/.

use std::env;
use std::path::Path;

fn main() {
    let program = env::var("CARGO_MANIFEST_DIR").expect("cargo gives CARGO_MANIFEST_DIR");
    let folder = env::var("RELAY_LIB_DIR").unwrap_or("../crates/relay/out".to_string());
    let folder = Path::new(&program).join(folder);
    let archive = folder.join("librelay.a");

    println!("cargo:rerun-if-env-changed=RELAY_LIB_DIR");
    println!("cargo:rerun-if-changed={}", archive.display());
    if archive.is_file() {
        println!("cargo:rustc-link-search=native={}", folder.display());
        println!("cargo:rustc-link-lib=static=relay");
    } else {
        println!(
            "cargo::error=no librelay.a in {}: run `rt lib` in crates/relay first",
            folder.display()
        );
    }
}
