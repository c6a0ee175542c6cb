//! What Rust's users expect of the types. **Not proved**: written for Cargo.

use crate::text::letter;
use crate::{Board, Colour, Played, Position, PositionFault, Probes, Rights, Square};
use core::fmt::{self, Debug, Display, Formatter, Write};
use core::hash::{Hash, Hasher};

impl Display for PositionFault {
    fn fmt(&self, out: &mut Formatter<'_>) -> fmt::Result {
        out.write_str(match self {
            PositionFault::Kings => "a side has no king, or more than one",
            PositionFault::PawnOnEdge => "a pawn is on rank 1 or 8",
            PositionFault::KingCapturable => "the side to move attacks the other king",
            PositionFault::TargetRank => "the en passant target is on the wrong rank",
            PositionFault::NumberRange => "a number is above 99,999",
        })
    }
}

#[cfg(feature = "std")]
impl std::error::Error for PositionFault {}

/// The parts of a position that a FEN has. What is stored besides follows from them.
type Fields<'a> = (&'a Board, Colour, Rights, Option<Square>, u32, u32);

fn fields(position: &Position) -> Fields<'_> {
    (
        position.board(),
        position.side(),
        position.rights(),
        position.target(),
        position.half(),
        position.full(),
    )
}

impl PartialEq for Position {
    /// Whether all six fields of the two FENs are equal, the counters too.
    ///
    /// By the rule of repetition (FIDE Laws 9.2.3) more positions are the same:
    /// `chess_text::write_position_key`.
    #[inline]
    fn eq(&self, other: &Position) -> bool {
        fields(self) == fields(other)
    }
}

impl Eq for Position {}

impl Hash for Position {
    fn hash<H: Hasher>(&self, state: &mut H) {
        fields(self).hash(state);
    }
}

impl Debug for Position {
    /// Writes the ranks from the eighth to the first, as `r...k..r`, and the other parts.
    fn fmt(&self, out: &mut Formatter<'_>) -> fmt::Result {
        out.debug_struct("Position")
            .field("board", self.board())
            .field("side", &self.side())
            .field("rights", &self.rights())
            .field("target", &self.target())
            .field("half", &self.half())
            .field("full", &self.full())
            .finish()
    }
}

impl Debug for Board {
    /// Writes the ranks from the eighth to the first, as `r...k..r`.
    fn fmt(&self, out: &mut Formatter<'_>) -> fmt::Result {
        for rank in (0..8).rev() {
            for square in (0..8).filter_map(|file| Square::new(file, rank)) {
                out.write_char(self.at(square).map_or('.', |it| letter(it).into()))?;
            }
            out.write_str(if rank == 0 { "" } else { "/" })?;
        }
        Ok(())
    }
}

impl PartialEq for Played {
    /// Whether the moves are equal, and the positions after them.
    #[inline]
    fn eq(&self, other: &Played) -> bool {
        self.mv == other.mv && self.next == other.next
    }
}

impl Eq for Played {}

impl Hash for Played {
    fn hash<H: Hasher>(&self, state: &mut H) {
        self.mv.hash(state);
        self.next.hash(state);
    }
}

impl Default for Probes {
    fn default() -> Probes {
        Probes::new()
    }
}
