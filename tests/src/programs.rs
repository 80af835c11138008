//! Where the proved programs are.

use std::path::PathBuf;

use crate::header::root;

/// `advise`, from FOQTIREL_BIN_DIR where that is set, otherwise from where `tools/build` writes it.
pub fn advise() -> PathBuf {
    let directory = match std::env::var("FOQTIREL_BIN_DIR") {
        Ok(named) if !named.is_empty() => PathBuf::from(named),
        _ => root().join("target/bin"),
    };
    let program = directory.join("advise");
    assert!(
        program.exists(),
        "{} is not there: make it with `tools/build`, or set FOQTIREL_BIN_DIR to its directory",
        program.display()
    );
    program
}
