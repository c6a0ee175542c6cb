//! A move's own pair is counted here, and tried in the proved source: both give the same count and
//! the same SAN. Written for Cargo.

use super::{count_own_pair, letter, write_san};
use crate::{read_fen, Played};
use chess_rules::{
    has_legal_move, in_check, may_have_two_origins, origins, try_pair, Kind, LegalMoves, Move,
    Position, Probes, Promotion, Square,
};

const FENS: [&str; 6] = [
    "rnbqkbnr/pppppppp/8/8/8/8/PPPPPPPP/RNBQKBNR w KQkq - 0 1",
    // castling, en passant, promotion
    "r3k2r/pp1p1p1p/8/2p1P1p1/1P1pP1P1/8/P1P2P1P/R3K2R w KQkq - 0 1",
    "n1n1k3/PPP5/8/8/8/8/ppp5/N1N1K3 w - - 0 1",
    // several origins for a target
    "5q2/qk1q4/4Q3/q2qQ1q1/Q4Q2/Q3Qqq1/8/K1Q2QqQ w - - 0 1",
    "4k3/1r2r3/2n1n3/b6b/B6B/2N1N3/1R2R3/4K3 w - - 0 1",
    // little room for the kings
    "3k4/8/8/8/8/8/R6R/3K4 w - - 0 1",
];

// The SAN of the move (PGN 8.2.3). Each origin of its kind and target is tried, its own too.
fn san_by_trying(position: &Position, played: &Played, probes: &mut Probes) -> String {
    let mv = played.mv;
    let kind = position.at(mv.from).unwrap().kind;
    let capture = position.at(mv.to).map_or("", |_| "x");
    let (from, to) = (mv.from.to_string(), mv.to.to_string());
    let mut text = match kind {
        Kind::King if mv.from.file() == 4 && mv.to.file() == 6 => "O-O".to_string(),
        Kind::King if mv.from.file() == 4 && mv.to.file() == 2 => "O-O-O".to_string(),
        Kind::King => ["K", capture, &to].concat(),
        Kind::Pawn if mv.from.file() != mv.to.file() => [&from[..1], "x", &to].concat(),
        Kind::Pawn => to,
        _ => {
            let rivals = rivals_of(position, kind, &mv, probes);
            let has_file = rivals.iter().any(|it| it.file() == mv.from.file());
            let has_rank = rivals.iter().any(|it| it.rank() == mv.from.rank());
            let disambiguation = match (rivals.is_empty(), has_file, has_rank) {
                (true, _, _) => "",
                (_, false, _) => &from[..1],
                (_, _, false) => &from[1..],
                _ => &from,
            };
            let letter = char::from(letter(kind)).to_string();
            [&letter, disambiguation, capture, &to].concat()
        }
    };
    text += match mv.promotion {
        None => "",
        Some(Promotion::Queen) => "=Q",
        Some(Promotion::Rook) => "=R",
        Some(Promotion::Bishop) => "=B",
        Some(Promotion::Knight) => "=N",
    };
    text + match in_check(&played.next) {
        false => "",
        true if has_legal_move(&played.next, probes) => "+",
        true => "#",
    }
}

// The other squares from which the same move is legal.
fn rivals_of(position: &Position, kind: Kind, mv: &Move, probes: &mut Probes) -> Vec<Square> {
    let mut rivals = origins(position, kind, mv.to).to_vec();
    rivals.retain(|&from| try_pair(position, Move { from, ..*mv }, probes).is_some());
    rivals.retain(|from| *from != mv.from);
    rivals
}

// The two forms do the same for the move, from the same count.
fn compare(position: &Position, played: &Played) {
    let (mut counted, mut tried) = (Probes::new(), Probes::new());
    count_own_pair(position, &played.mv, &mut counted);
    // The body of the proved source.
    let _next = try_pair(position, played.mv, &mut tried);
    assert_eq!(counted, tried);
    let text = write_san(position, played, &mut counted);
    let expected = san_by_trying(position, played, &mut tried);
    assert_eq!(text.as_slice(), expected.as_bytes());
    assert_eq!(counted, tried, "{expected}");
}

// Whether write_san counts the move's own pair, and whether that is the only one of its origins.
fn path(position: &Position, mv: &Move) -> (bool, bool) {
    let kind = position.at(mv.from).unwrap().kind;
    let has_rivals = !matches!(kind, Kind::King | Kind::Pawn);
    let may_have_two = may_have_two_origins(position, kind, mv.to);
    (has_rivals, has_rivals && !may_have_two)
}

#[test]
fn a_pair_counted_is_a_pair_tried() {
    let (mut moves_compared, mut own_pairs, mut own_pairs_alone) = (0, 0, 0);
    let mut dice = 1u64;
    for fen in FENS {
        let start = read_fen(fen.as_bytes()).ok().unwrap();
        let mut position = start;
        for _ in 0..1000 {
            let moves: Vec<Played> = LegalMoves::new(&position).into_iter().collect();
            for played in &moves {
                compare(&position, played);
                let (is_counted, is_alone) = path(&position, &played.mv);
                moves_compared += 1;
                own_pairs += u32::from(is_counted);
                own_pairs_alone += u32::from(is_alone);
            }
            // One of the moves is played. Without one the game begins again.
            dice = dice.wrapping_mul(6_364_136_223_846_793_005).wrapping_add(1);
            let chosen = moves.get((dice >> 33) as usize % moves.len().max(1));
            position = chosen.map_or(start, |it| it.next);
        }
    }
    assert!(moves_compared > 50_000);
    assert!(own_pairs_alone > 10_000 && own_pairs - own_pairs_alone > 5_000);
}
