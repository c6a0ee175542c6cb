//! Checks the laws on each file of the folders named, in the order of their names.

use std::path::PathBuf;
use std::{env, fs, io};

fn main() -> io::Result<()> {
    let mut count = 0;
    for folder in env::args_os().skip(1) {
        let files: io::Result<Vec<PathBuf>> = fs::read_dir(folder)?
            .map(|entry| Ok(entry?.path()))
            .collect();
        let mut files = files?;
        files.sort();
        for file in files {
            // A panic says what law is broken; this says for which input.
            eprintln!("{}", file.display());
            pgn_fuzz::check(&fs::read(file)?);
            count += 1;
        }
    }
    println!("{count} inputs, no finding");
    Ok(())
}
