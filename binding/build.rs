//! Links the proved engine, `libfoqtirel.a`: from FOQTIREL_LIB_DIR where it is set, otherwise from where
//! `tools/build` writes it.

use std::path::PathBuf;

fn main() {
    println!("cargo:rerun-if-env-changed=FOQTIREL_LIB_DIR");
    println!("cargo:rerun-if-changed=build.rs");
    let directory = match std::env::var("FOQTIREL_LIB_DIR") {
        Ok(named) if !named.is_empty() => PathBuf::from(named),
        _ => PathBuf::from(env!("CARGO_MANIFEST_DIR")).join("../target/staticlib"),
    };
    let library = directory.join("libfoqtirel.a");
    println!("cargo:rerun-if-changed={}", library.display());
    if !library.exists() {
        eprintln!("{} is not there.", library.display());
        eprintln!("Make it with `tools/build`, or set FOQTIREL_LIB_DIR to its directory.");
        std::process::exit(1);
    }
    println!("cargo:rustc-link-search=native={}", directory.display());
    println!("cargo:rustc-env=FOQTIREL_LIBRARY={}", library.display());
}
