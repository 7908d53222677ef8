//! Links libgpmf.a, which is in the folder that GPMF_LIB names.
use std::path::PathBuf;

fn main() {
    println!("cargo:rerun-if-env-changed=GPMF_LIB");
    println!("cargo:rerun-if-changed=build.rs");
    let folder = PathBuf::from(std::env::var_os("GPMF_LIB").unwrap_or_default());
    let library = folder.join("libgpmf.a");
    if !folder.is_absolute() || !library.is_file() {
        eprintln!("gpmf: there is no library to link.");
        eprintln!("Run `./gpmf lib` in the repository of Nastteron, which builds target/lib, and set GPMF_LIB to that folder, as an absolute path:");
        eprintln!("    GPMF_LIB=/where/it/is/target/lib cargo build");
        eprintln!("GPMF_LIB is now {folder:?}, and it must have libgpmf.a. The library is for x86-64.");
        std::process::exit(1);
    }
    println!("cargo:rerun-if-changed={}", library.display());
    println!("cargo:rustc-link-search=native={}", folder.display());
    println!("cargo:rustc-link-lib=static=gpmf");
}
