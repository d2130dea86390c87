//! Links the proved library: the file named by IDL_LIBRARY, or else the one that the repository builds.

use std::env;
use std::path::PathBuf;

fn main() {
    println!("cargo:rerun-if-env-changed=IDL_LIBRARY");
    let built = PathBuf::from(env!("CARGO_MANIFEST_DIR")).join("../../crates/idl/out/libidl.a");
    let library = env::var_os("IDL_LIBRARY").map_or(built, PathBuf::from);
    let library = library.canonicalize().unwrap_or_else(|error| panic!("{}: {error}", library.display()));
    let folder = library.parent().expect("a file is in a folder");
    let name = library.file_stem().and_then(|stem| stem.to_str()?.strip_prefix("lib")).expect("it is named lib*.a");
    println!("cargo:rerun-if-changed={}", library.display());
    println!("cargo:rustc-link-search=native={}", folder.display());
    println!("cargo:rustc-link-lib=static={name}");
}
