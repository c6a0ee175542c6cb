//! The texts of squares, pieces, moves and positions. **Not proved**: written for Cargo. What reads
//! and writes a FEN is the proved source.

use crate::fen::{read_fen, write_fen};
use crate::{Colour, Kind, Move, Piece, Position, Promotion, Square};
use core::fmt::{self, Display, Formatter};
use core::str::{from_utf8, FromStr};

/// Why a text is not that of a square, a piece, a move or a position.
#[derive(Clone, Copy, PartialEq, Eq, Hash, Debug)]
#[non_exhaustive]
pub enum TextFault {
    /// The text is not that of a square, as `e4` is.
    NotASquare,
    /// The text is not the letter of a piece in a FEN, as `N` and `q` are.
    NotAPiece,
    /// The text is not that of a move in UCI, as `e2e4` and `a7a8q` are.
    NotAMove,
    /// The text is no FEN. The field is the lowest that is no spelling, 1 to 6. It is 7 if all six
    /// are spellings, and the position breaks a rule.
    BadFen(u8),
}

impl Display for TextFault {
    fn fmt(&self, out: &mut Formatter<'_>) -> fmt::Result {
        match self {
            TextFault::NotASquare => out.pad("not a square"),
            TextFault::NotAPiece => out.pad("not a piece"),
            TextFault::NotAMove => out.pad("not a move"),
            TextFault::BadFen(field) => write!(out, "bad FEN, field {field}"),
        }
    }
}

#[cfg(feature = "std")]
impl std::error::Error for TextFault {}

fn pad_ascii(out: &mut Formatter<'_>, text: &[u8]) -> fmt::Result {
    out.pad(from_utf8(text).map_err(|_| fmt::Error)?)
}

fn text_of(square: Square) -> [u8; 2] {
    [b'a' + square.file(), b'1' + square.rank()]
}

fn square_of(text: &[u8]) -> Option<Square> {
    match *text {
        [file, rank] => Square::new(file.wrapping_sub(b'a'), rank.wrapping_sub(b'1')),
        _ => None,
    }
}

impl Display for Square {
    /// Writes the letter of the file and the digit of the rank, as `e4`. (PGN 8.2.3.1)
    fn fmt(&self, out: &mut Formatter<'_>) -> fmt::Result {
        pad_ascii(out, &text_of(*self))
    }
}

impl FromStr for Square {
    type Err = TextFault;

    /// Reads what `Display` writes, as `e4`.
    fn from_str(text: &str) -> Result<Square, TextFault> {
        square_of(text.as_bytes()).ok_or(TextFault::NotASquare)
    }
}

/// The letter of a piece in a FEN.
pub(crate) fn letter(piece: Piece) -> u8 {
    let letter = match piece.kind {
        Kind::King => b'k',
        Kind::Queen => b'q',
        Kind::Rook => b'r',
        Kind::Bishop => b'b',
        Kind::Knight => b'n',
        Kind::Pawn => b'p',
    };
    match piece.colour {
        Colour::White => letter.to_ascii_uppercase(),
        Colour::Black => letter,
    }
}

impl Display for Piece {
    /// Writes the letter of a FEN: a capital one for White, as `N`, a small one for Black, as `n`.
    /// (PGN 16.1.3.1)
    fn fmt(&self, out: &mut Formatter<'_>) -> fmt::Result {
        pad_ascii(out, &[letter(*self)])
    }
}

impl FromStr for Piece {
    type Err = TextFault;

    /// Reads what `Display` writes, as `N`.
    fn from_str(text: &str) -> Result<Piece, TextFault> {
        use Kind::*;
        for colour in [Colour::White, Colour::Black] {
            for kind in [King, Queen, Rook, Bishop, Knight, Pawn] {
                let piece = Piece { colour, kind };
                if text.as_bytes() == [letter(piece)] {
                    return Ok(piece);
                }
            }
        }
        Err(TextFault::NotAPiece)
    }
}

impl Display for Move {
    /// Writes UCI, as `chess_text::write_uci` does: `e2e4`, `a7a8q`, `e1g1`.
    fn fmt(&self, out: &mut Formatter<'_>) -> fmt::Result {
        let ([a, b], [c, d]) = (text_of(self.from), text_of(self.to));
        match self.promotion {
            None => pad_ascii(out, &[a, b, c, d]),
            Some(promotion) => pad_ascii(out, &[a, b, c, d, small_letter(promotion)]),
        }
    }
}

impl FromStr for Move {
    type Err = TextFault;

    /// Reads what `Display` writes, whether a position allows the move or not: `e2e4`, `a1h8n`.
    ///
    /// A move in SAN, such as `Nf3`, has a meaning in a position alone: `pgn_game::find_move`.
    fn from_str(text: &str) -> Result<Move, TextFault> {
        move_of(text.as_bytes()).ok_or(TextFault::NotAMove)
    }
}

fn small_letter(promotion: Promotion) -> u8 {
    match promotion {
        Promotion::Queen => b'q',
        Promotion::Rook => b'r',
        Promotion::Bishop => b'b',
        Promotion::Knight => b'n',
    }
}

fn move_of(text: &[u8]) -> Option<Move> {
    use Promotion::*;
    let mut all = [Queen, Rook, Bishop, Knight].into_iter();
    let promotion = match *text.get(4..)? {
        [] => None,
        [letter] => Some(all.find(|it| small_letter(*it) == letter)?),
        _ => return None,
    };
    Some(Move {
        from: square_of(&text[..2])?,
        to: square_of(&text[2..4])?,
        promotion,
    })
}

impl Display for Position {
    /// Writes the canonical FEN, as `chess_text::write_fen` does. (PGN 16.1.3)
    fn fmt(&self, out: &mut Formatter<'_>) -> fmt::Result {
        pad_ascii(out, &write_fen(self))
    }
}

impl FromStr for Position {
    type Err = TextFault;

    /// Reads a FEN, as `chess_text::read_fen` does. (PGN 16.1.3)
    fn from_str(text: &str) -> Result<Position, TextFault> {
        read_fen(text.as_bytes()).map_err(|fault| TextFault::BadFen(fault.field))
    }
}
