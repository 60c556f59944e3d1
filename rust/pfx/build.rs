//! Links libpfx.a, from the folder that the variable PFX_LIB names, or else from examples/embed/out, where examples/embed/build
//! puts it, or from release.

use std::env;
use std::path::PathBuf;

fn main() {
    println!("cargo:rerun-if-env-changed=PFX_LIB");
    let here = PathBuf::from(env::var_os("CARGO_MANIFEST_DIR").expect("cargo names the crate's folder"));
    let folders = match env::var_os("PFX_LIB") {
        Some(folder) => vec![PathBuf::from(folder)],
        None => vec![here.join("../../examples/embed/out"), here.join("../../release")],
    };
    let Some(folder) = folders.iter().find(|folder| folder.join("libpfx.a").is_file()) else {
        panic!("no libpfx.a in {folders:?}: run examples/embed/build, or set PFX_LIB");
    };
    println!("cargo:rerun-if-changed={}", folder.join("libpfx.a").display());
    println!("cargo:rustc-link-search=native={}", folder.display());
    println!("cargo:rustc-link-lib=static=pfx");
}
