//! What Rust's users expect of the types. **Not proved**: written for Cargo.

use crate::{FenFault, FenWriter, Played, SanFault, UciFault};
use chess_rules::{try_pair, Position, Probes};
use core::fmt::{self, Debug, Display, Formatter};

impl Display for FenFault {
    /// Writes the words that the program reports for such a FEN tag.
    fn fmt(&self, out: &mut Formatter<'_>) -> fmt::Result {
        write!(out, "bad FEN, field {}", self.field)
    }
}

#[cfg(feature = "std")]
impl std::error::Error for FenFault {}

impl Display for SanFault {
    /// Writes the words that the program reports for such a move.
    fn fmt(&self, out: &mut Formatter<'_>) -> fmt::Result {
        out.write_str(match self {
            SanFault::NoMove => "move is not legal",
            SanFault::Ambiguous => "move is ambiguous",
        })
    }
}

#[cfg(feature = "std")]
impl std::error::Error for SanFault {}

impl Display for UciFault {
    /// Writes the words that the program reports for such a move.
    fn fmt(&self, out: &mut Formatter<'_>) -> fmt::Result {
        out.write_str(match self {
            UciFault::NotAMove => "not a move",
            UciFault::IllegalMove => "move is not legal",
        })
    }
}

#[cfg(feature = "std")]
impl std::error::Error for UciFault {}

impl Debug for FenWriter {
    fn fmt(&self, out: &mut Formatter<'_>) -> fmt::Result {
        out.debug_struct("FenWriter").finish_non_exhaustive()
    }
}

impl Default for FenWriter {
    fn default() -> FenWriter {
        FenWriter::new()
    }
}

/// Whether the move is legal, and the position is the one after it.
pub(crate) fn is_played(position: &Position, played: &Played) -> bool {
    try_pair(position, played.mv, &mut Probes::new()) == Some(played.next)
}
