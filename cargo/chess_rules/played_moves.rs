//! The legal moves of a position as an iterator. **Not proved**: written for Cargo.

use crate::{LegalMoves, Played, Probes};
use core::fmt::{self, Debug, Formatter};
use core::iter::FusedIterator;

/// An iterator over the legal moves of a position, each with the position after it.
///
/// It is what a `for` makes of [`LegalMoves`]. It counts the moves that it tries by itself.
///
/// # Examples
///
/// ```
/// use chess_rules::{LegalMoves, Position};
///
/// let position = Position::initial();
/// let mut replies = 0;
/// for played in LegalMoves::new(&position) {
///     replies += LegalMoves::new(&played.next).into_iter().count();
/// }
/// assert_eq!(replies, 400);
/// ```
pub struct PlayedMoves<'a> {
    moves: LegalMoves<'a>,
    probes: Probes,
}

impl<'a> IntoIterator for LegalMoves<'a> {
    type Item = Played;
    type IntoIter = PlayedMoves<'a>;

    fn into_iter(self) -> PlayedMoves<'a> {
        let (moves, probes) = (self, Probes::new());
        PlayedMoves { moves, probes }
    }
}

impl Iterator for PlayedMoves<'_> {
    type Item = Played;

    fn next(&mut self) -> Option<Played> {
        self.moves.next(&mut self.probes)
    }
}

impl FusedIterator for PlayedMoves<'_> {}

impl Debug for LegalMoves<'_> {
    fn fmt(&self, out: &mut Formatter<'_>) -> fmt::Result {
        out.debug_struct("LegalMoves").finish_non_exhaustive()
    }
}

impl Debug for PlayedMoves<'_> {
    fn fmt(&self, out: &mut Formatter<'_>) -> fmt::Result {
        out.debug_struct("PlayedMoves").finish_non_exhaustive()
    }
}

impl Debug for Played {
    fn fmt(&self, out: &mut Formatter<'_>) -> fmt::Result {
        out.debug_struct("Played")
            .field("mv", &self.mv)
            .field("next", &self.next)
            .finish()
    }
}
