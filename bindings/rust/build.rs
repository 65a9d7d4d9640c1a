//! Links the static library. The variable STANQUIVOL_LIB names the folder that holds `libstanquivol.a`; without it, the
//! folder into which `make compare` puts it is taken if it is there, and else the linker's own search path.

use std::path::Path;

fn main() {
    println!("cargo:rerun-if-env-changed=STANQUIVOL_LIB");
    let built = Path::new(env!("CARGO_MANIFEST_DIR")).join("../../target/native");
    let folder = std::env::var("STANQUIVOL_LIB")
        .ok()
        .unwrap_or_else(|| built.display().to_string());
    let archive = Path::new(&folder).join("libstanquivol.a");
    if archive.exists() {
        println!("cargo:rustc-link-search=native={folder}");
    }
    println!("cargo:rustc-link-lib=static=stanquivol");
    println!("cargo:rerun-if-changed={}", archive.display());
}
