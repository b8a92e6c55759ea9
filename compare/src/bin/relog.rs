//! `relog` runs the run file on standard input by the paper's store and prints its lines.

use compare::paper::Paper;
use compare::runfile::{run, MOST_BYTES};
use std::io::{Read, Write};

fn main() -> std::io::Result<()> {
    let mut file = Vec::new();
    // One byte more than a run file may have is enough to see that it is too long.
    let limit = MOST_BYTES as u64 + 1;
    std::io::stdin().lock().take(limit).read_to_end(&mut file)?;
    let lines = run(&file, &mut Paper::new());
    std::io::stdout().write_all(lines.as_bytes())
}
