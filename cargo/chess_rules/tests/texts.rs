//! Squares, pieces, moves and positions as text. Written for Cargo.

use chess_rules::{Colour, Kind, Move, Piece, Position, Promotion, Square, TextFault};
use std::error::Error;

/// The letters of the white and of the black piece of each kind.
const KINDS: [(&str, &str, Kind); 6] = [
    ("K", "k", Kind::King),
    ("Q", "q", Kind::Queen),
    ("R", "r", Kind::Rook),
    ("B", "b", Kind::Bishop),
    ("N", "n", Kind::Knight),
    ("P", "p", Kind::Pawn),
];
const PROMOTIONS: [(&str, Option<Promotion>); 5] = [
    ("", None),
    ("q", Some(Promotion::Queen)),
    ("r", Some(Promotion::Rook)),
    ("b", Some(Promotion::Bishop)),
    ("n", Some(Promotion::Knight)),
];
/// Rank 1, the other fields, and the field at fault.
const BAD_FENS: [(&str, &str, u8); 7] = [
    ("RNBQKBN", "w KQkq - 0 1", 1),
    ("RNBQKBNR", "W KQkq - 0 1", 2),
    ("RNBQKBNR", "w QK - 0 1", 3),
    ("RNBQKBNR", "w KQkq e4 0 1", 4),
    ("RNBQKBNR", "w KQkq - x 1", 5),
    ("RNBQKBNR", "w KQkq - 0 1 ", 6),
    ("RNBQ1BNR", "w kq - 0 1", 7),
];
const INITIAL: &str = "rnbqkbnr/pppppppp/8/8/8/8/PPPPPPPP/RNBQKBNR w KQkq - 0 1";

/// Each square with its text, from a1, b1 to h8.
fn squares() -> impl Iterator<Item = (String, Square)> {
    let files = ["a", "b", "c", "d", "e", "f", "g", "h"];
    (0..64u8).map(move |it| {
        let text = format!("{}{}", files[usize::from(it % 8)], 1 + it / 8);
        (text, Square::new(it % 8, it / 8).unwrap())
    })
}

#[test]
fn a_square_is_its_file_and_its_rank() {
    assert_eq!(squares().last().unwrap().0, "h8");
    for (text, square) in squares() {
        assert_eq!(square.to_string(), text);
        assert_eq!(text.parse(), Ok(square));
    }
    for text in [
        "", "e", "4", "e9", "e0", "i4", "`4", "E4", "e44", " e4", "e4 ", "4e", "é", "é4", "-",
    ] {
        assert_eq!(text.parse::<Square>(), Err(TextFault::NotASquare), "{text}");
    }
}

#[test]
fn a_piece_is_its_letter_in_a_fen() {
    for (white, black, kind) in KINDS {
        for (text, colour) in [(white, Colour::White), (black, Colour::Black)] {
            let piece = Piece { colour, kind };
            assert_eq!(piece.to_string(), text);
            assert_eq!(text.parse(), Ok(piece));
        }
    }
    for byte in 0..=127u8 {
        let text = char::from(byte).to_string();
        let is_letter = KINDS.iter().any(|it| text == it.0 || text == it.1);
        assert_eq!(text.parse::<Piece>().is_ok(), is_letter, "{text}");
    }
    for text in ["", "KK", "K ", "♔", "é"] {
        assert_eq!(text.parse::<Piece>(), Err(TextFault::NotAPiece), "{text}");
    }
}

#[test]
fn a_move_is_its_text_in_uci() {
    for (origin, from) in squares() {
        for (target, to) in squares() {
            for (letter, promotion) in PROMOTIONS {
                #[rustfmt::skip]
                let mv = Move { from, to, promotion };
                let text = [origin.as_str(), &target, letter].concat();
                assert_eq!(mv.to_string(), text);
                assert_eq!(text.parse(), Ok(mv));
            }
        }
    }
    for text in [
        "", "e2", "e2e", "e2e9", "i2e4", "e2 e4", "e2-e4", "E2E4", "e2e4k", "e2e4p", "e7e8Q",
        "e7e8qq", "e7e8=q", "0000", "O-O", "Nf3", "e2e4 ", "éé", "e2é", "e2e4é", "aée4",
    ] {
        assert_eq!(text.parse::<Move>(), Err(TextFault::NotAMove), "{text}");
    }
}

#[test]
fn a_position_is_its_fen() {
    assert_eq!(Position::initial().to_string(), INITIAL);
    assert_eq!(INITIAL.parse(), Ok(Position::initial()));
    // Digits side by side and leading zeros are read, and not written. (PGN 16.1.3)
    let position: Position = "8/8/8/8/8/k7/p6P/K331 b - - 0012 083".parse().unwrap();
    assert_eq!(position.side(), Colour::Black);
    assert_eq!((position.half(), position.full()), (12, 83));
    assert_eq!(position.to_string(), "8/8/8/8/8/k7/p6P/K7 b - - 12 83");
}

#[test]
fn a_bad_fen_is_known_by_its_field() {
    assert_eq!("".parse::<Position>(), Err(TextFault::BadFen(1)));
    for (board, others, field) in BAD_FENS {
        let text = format!("rnbqkbnr/pppppppp/8/8/8/8/PPPPPPPP/{board} {others}");
        let fault = TextFault::BadFen(field);
        assert_eq!(text.parse::<Position>(), Err(fault), "{text}");
    }
}

#[test]
fn a_text_has_the_width_that_is_asked_for() {
    let square: Square = "e4".parse().unwrap();
    assert_eq!(format!("[{square:>4}|{square:<4}]"), "[  e4|e4  ]");
    let mv: Move = "e7e8q".parse().unwrap();
    assert_eq!(format!("[{mv:>6}]"), "[ e7e8q]");
    let piece: Piece = "n".parse().unwrap();
    assert_eq!(format!("[{piece:^3}]"), "[ n ]");
}

#[test]
fn a_fault_is_an_error_in_words() {
    for (fault, words) in [
        (TextFault::NotASquare, "not a square"),
        (TextFault::NotAPiece, "not a piece"),
        (TextFault::NotAMove, "not a move"),
        (TextFault::BadFen(4), "bad FEN, field 4"),
    ] {
        let error = Box::<dyn Error + Send + Sync>::from(fault);
        assert_eq!(error.to_string(), words);
    }
}
