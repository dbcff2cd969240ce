//! Links the static library `librumpsteak.a`, from the folder that RUMPSTEAK_LIB names, or from this crate's folder `lib`.
use std::env;
use std::path::{Path, PathBuf};

fn main() {
    println!("cargo:rerun-if-env-changed=RUMPSTEAK_LIB");
    let folder = match env::var_os("RUMPSTEAK_LIB") {
        Some(folder) => PathBuf::from(folder),
        None => Path::new(&env::var_os("CARGO_MANIFEST_DIR").expect("cargo names the crate's folder")).join("lib"),
    };
    let library = folder.join("librumpsteak.a");
    assert!(
        library.is_file(),
        "there is no {}: set RUMPSTEAK_LIB to the folder that has librumpsteak.a, or use the crate of the package, which has it inside",
        library.display()
    );
    println!("cargo:rerun-if-changed={}", library.display());
    println!("cargo:rustc-link-search=native={}", folder.display());
    println!("cargo:rustc-link-lib=static=rumpsteak");
}
