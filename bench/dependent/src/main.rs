//! Converts standard input to export format.

use pgn_game::{convert, Inlet, Mode, Outlet};
use std::error::Error;
use std::io::{self, BufWriter, Write};

fn main() -> Result<(), Box<dyn Error>> {
    let mut input = Inlet::new(io::stdin().lock());
    let mut output = Outlet::new(BufWriter::with_capacity(1 << 16, io::stdout().lock()));
    convert::<64, 33, _, _>(&mut input, &mut output, Mode::Full)?;
    output.into_inner().flush()?;
    Ok(())
}
