//! Tells the linker where the proved library is: where PACKED_REFS_LIB_DIR says, else beside this crate as ./install puts the two, else in the repository.
use std::path::{Path, PathBuf};

fn main() {
    let crate_dir = std::env::var("CARGO_MANIFEST_DIR").expect("cargo sets CARGO_MANIFEST_DIR");
    let crate_dir = Path::new(&crate_dir);
    println!("cargo:rerun-if-changed=build.rs");
    println!("cargo:rerun-if-env-changed=PACKED_REFS_LIB_DIR");
    let places: Vec<(PathBuf, &str)> = match std::env::var_os("PACKED_REFS_LIB_DIR") {
        Some(dir) => vec![(PathBuf::from(dir), "packed_refs")],
        // PREFIX/share/packed-refs/rust and PREFIX/lib; or rust/ and target/ of the repository
        None => vec![(crate_dir.join("../../../lib"), "packed_refs"), (crate_dir.join("../target/staticlib"), "host")],
    };
    let archive = |dir: &Path, name: &str| dir.join(format!("lib{name}.a"));
    let Some((dir, name)) = places.iter().find(|(dir, name)| archive(dir, name).is_file()) else {
        let looked: Vec<String> = places.iter().map(|(dir, name)| archive(dir, name).display().to_string()).collect();
        panic!(
            "the proved library is not there: run `./libhost` at the root of the repository, or `./install PREFIX` there and use the crate below PREFIX. \
             Looked for {}",
            looked.join(" and ")
        );
    };
    println!("cargo:rerun-if-changed={}", archive(dir, name).display());
    println!("cargo:rustc-link-search=native={}", dir.display());
    println!("cargo:rustc-link-lib=static={name}");
}
