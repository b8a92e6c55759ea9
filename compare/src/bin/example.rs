//! Writes the two run files of document 01's example, with fuse 3 and with fuse 6, into the folder
//! that is given.
//!
//!     example FOLDER

use compare::runfile::{example, write};
use std::path::PathBuf;

fn main() -> std::io::Result<()> {
    let folder: PathBuf = std::env::args_os().nth(1).unwrap_or(".".into()).into();
    for fuse in [3, 6] {
        let file = folder.join(format!("fuse-{fuse}.run"));
        std::fs::write(file, write(&example(fuse)))?;
    }
    Ok(())
}
