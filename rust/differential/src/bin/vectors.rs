//! Writes the vectors and what has to be printed for them: `vectors FOLDER`.
//!
//! FOLDER/stdin holds the vectors, FOLDER/stdout the lines that the reference gives for them.

use std::path::Path;
use std::process::ExitCode;

use differential::vectors::{all, standard_input, standard_output};

/// Writes the two files of this folder.
fn write(folder: &Path) -> std::io::Result<()> {
    let vectors = all();
    std::fs::write(folder.join("stdin"), standard_input(&vectors))?;
    std::fs::write(folder.join("stdout"), standard_output(&vectors))?;
    println!("{} vectors", vectors.len());
    Ok(())
}

fn main() -> ExitCode {
    let Some(folder) = std::env::args().nth(1) else {
        eprintln!("usage: vectors FOLDER");
        return ExitCode::from(2);
    };
    if let Err(error) = write(Path::new(&folder)) {
        eprintln!("{folder}: {error}");
        return ExitCode::FAILURE;
    }
    ExitCode::SUCCESS
}
