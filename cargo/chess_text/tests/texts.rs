//! `Display` and `FromStr` of chess_rules have the texts of this crate, and positions are equal
//! exactly if their FENs are. Written for Cargo.

use chess_rules::{LegalMoves, Move, Position, Probes, TextFault};
use chess_text::{read_fen, read_uci, write_fen, write_uci};
use std::collections::HashSet;

const FENS: [&str; 5] = [
    "rnbqkbnr/pppppppp/8/8/8/8/PPPPPPPP/RNBQKBNR w KQkq - 0 1",
    // castling, en passant, promotion
    "r3k2r/pp1p1p1p/8/2p1P1p1/1P1pP1P1/8/P1P2P1P/R3K2R w KQkq - 0 1",
    "n1n1k3/PPP5/8/8/8/8/ppp5/N1N1K3 w - - 0 1",
    "4k3/1r2r3/2n1n3/b6b/B6B/2N1N3/1R2R3/4K3 w - - 98 99998",
    // a capture en passant
    "rnbqkbnr/ppp1p1pp/8/3pPp2/8/8/PPPP1PPP/RNBQKBNR w KQkq f6 0 3",
];

/// The position's text is its FEN, which is read as this position.
fn check_text(position: &Position) -> String {
    let text = position.to_string();
    assert_eq!(text.as_bytes(), write_fen(position).as_slice());
    assert_eq!(text.parse().as_ref(), Ok(position));
    assert_eq!(read_fen(text.as_bytes()).as_ref(), Ok(position));
    text
}

/// The move's text is its UCI, which is read as this move and the position after it.
fn check_move(position: &Position, mv: Move, next: &Position) {
    let text = mv.to_string();
    assert_eq!(text.as_bytes(), write_uci(&mv).as_slice());
    assert_eq!(text.parse(), Ok(mv));
    let played = read_uci(position, text.as_bytes(), &mut Probes::new()).unwrap();
    assert_eq!((played.mv, played.next), (mv, *next));
}

#[test]
fn positions_are_equal_exactly_if_their_fens_are() {
    for fen in FENS {
        let start = fen.parse::<Position>().unwrap();
        assert_eq!(check_text(&start), fen);
        // All positions of the first two plies, and some of the third, by each way to them.
        let mut reached = vec![start];
        let mut before = vec![start];
        for most in [100, 100, 20] {
            let mut next_ones = Vec::new();
            for position in before.iter().take(most) {
                for played in LegalMoves::new(position) {
                    check_move(position, played.mv, &played.next);
                    next_ones.push(played.next);
                }
            }
            reached.extend(&next_ones);
            before = next_ones;
        }
        let texts: HashSet<String> = reached.iter().map(check_text).collect();
        let positions: HashSet<Position> = reached.iter().copied().collect();
        assert_eq!(positions.len(), texts.len());
        assert!(texts.len() > 100, "{fen}");
        for one in reached.iter().take(200) {
            for other in reached.iter().take(200) {
                assert_eq!(one == other, write_fen(one) == write_fen(other));
            }
        }
    }
}

#[test]
fn a_damaged_fen_is_read_by_both_in_the_same_way() {
    let (mut read, mut rejected) = (0, [0; 8]);
    for fen in FENS {
        for place in 0..fen.len() {
            for letter in " /0189KQkqPpNnwb-aceh36xé".chars() {
                let text = [&fen[..place], &letter.to_string(), &fen[place + 1..]].concat();
                let wanted = read_fen(text.as_bytes());
                match wanted {
                    Ok(_) => read += 1,
                    Err(fault) => rejected[usize::from(fault.field)] += 1,
                }
                let wanted = wanted.map_err(|it| TextFault::BadFen(it.field));
                assert_eq!(text.parse::<Position>(), wanted, "{text}");
            }
        }
    }
    assert!(read > 300, "{read}");
    assert!(rejected[1..].iter().all(|it| *it > 10), "{rejected:?}");
}
