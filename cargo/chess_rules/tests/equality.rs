//! Positions are equal exactly if all six fields of their FENs are, and then have the same hash. So
//! are moves that were played, if the moves and the positions after them are.
//! Written for Cargo.

use chess_rules::{try_pair, LegalMoves, Move, Parts, Piece, Played, Position, Probes, Square};
use std::array;
use std::collections::hash_map::RandomState;
use std::collections::{HashMap, HashSet};
use std::hash::BuildHasher;

/// The second of each differs from the first in one field.
#[rustfmt::skip]
const PAIRS: [(&str, &str); 7] = [
    ("4k3/8/8/8/8/8/8/R3K2R w KQ - 4 9", "4k3/8/8/8/8/8/7P/R3K2R w KQ - 4 9"),
    ("4k3/8/8/8/8/8/8/R3K2R w KQ - 4 9", "4k3/8/8/8/8/8/8/R3K2R b KQ - 4 9"),
    ("4k3/8/8/8/8/8/8/R3K2R w KQ - 4 9", "4k3/8/8/8/8/8/8/R3K2R w Q - 4 9"),
    ("4k3/8/8/4p3/8/8/8/4K3 w - e6 0 9", "4k3/8/8/4p3/8/8/8/4K3 w - - 0 9"),
    ("4k3/8/8/4p3/8/8/8/4K3 w - e6 0 9", "4k3/8/8/4p3/8/8/8/4K3 w - d6 0 9"),
    ("4k3/8/8/8/8/8/8/R3K2R w KQ - 4 9", "4k3/8/8/8/8/8/8/R3K2R w KQ - 5 9"),
    ("4k3/8/8/8/8/8/8/R3K2R w KQ - 4 9", "4k3/8/8/8/8/8/8/R3K2R w KQ - 4 10"),
];

fn read(fen: &str) -> Position {
    fen.parse().unwrap()
}

/// The position after these moves of the usual first position.
fn after(moves: &str) -> Position {
    let mut position = Position::initial();
    for mv in moves.split(' ').map(|it| it.parse().unwrap()) {
        position = try_pair(&position, mv, &mut Probes::new()).unwrap();
    }
    position
}

fn are_equal(one: &Position, other: &Position) -> bool {
    let hasher = RandomState::new();
    let is_same = one == other;
    assert_eq!(is_same, other == one);
    assert_eq!(is_same, hasher.hash_one(one) == hasher.hash_one(other));
    is_same
}

#[test]
fn one_other_field_makes_another_position() {
    for (one, other) in PAIRS {
        assert!(are_equal(&read(one), &read(one)), "{one}");
        assert!(are_equal(&read(other), &read(other)), "{other}");
        assert!(!are_equal(&read(one), &read(other)), "{one}, {other}");
    }
}

#[test]
fn another_way_to_a_position_makes_no_other() {
    let one = after("e2e3 e7e6 d2d3 d7d6");
    assert!(are_equal(&one, &after("d2d3 d7d6 e2e3 e7e6")));
    let fen = "rnbqkbnr/ppp2ppp/3pp3/8/8/3PP3/PPP2PPP/RNBQKBNR w KQkq - 0 3";
    assert!(are_equal(&one, &read(fen)));
    // A check, so that what is stored beside the fields is not that of most positions.
    let mate = after("f2f3 e7e5 g2g4 d8h4");
    let fen = "rnb1kbnr/pppp1ppp/8/4p3/6Pq/5P2/PPPPP2P/RNBQKBNR w KQkq - 1 3";
    assert!(are_equal(&mate, &read(fen)));
    // The counters count. This is the same position by the rule of repetition. (FIDE Laws 9.2.3)
    let repeated = after("g1f3 g8f6 f3g1 f6g8");
    assert!(!are_equal(&repeated, &Position::initial()));
}

#[test]
fn a_position_of_parts_is_equal() {
    for fen in PAIRS.iter().flat_map(|it| [it.0, it.1]) {
        let position = read(fen);
        let square_of = |index: u8| Square::new(index % 8, index / 8).unwrap();
        let built = Position::build(&Parts {
            board: array::from_fn(|index| position.at(square_of(index as u8))),
            side: position.side(),
            rights: position.rights(),
            target: position.target(),
            half: position.half(),
            full: position.full(),
        });
        assert!(are_equal(&position, &built.unwrap()), "{fen}");
    }
}

#[test]
fn what_is_equal_is_one_key() {
    let squares: HashSet<Square> = ["e4", "d4", "e4"].map(|it| it.parse().unwrap()).into();
    assert_eq!(squares.len(), 2);
    let pieces: HashSet<Piece> = ["N", "n", "P", "N"].map(|it| it.parse().unwrap()).into();
    assert_eq!(pieces.len(), 3);
    let texts = ["e7e8", "e7e8q", "e7e8n", "e8e7", "e7e8q"];
    let moves: HashSet<Move> = texts.map(|it| it.parse().unwrap()).into();
    assert_eq!(moves.len(), 4);
    let mut counts: HashMap<Position, u32> = HashMap::new();
    for moves in ["e2e3 e7e6", "e2e4 e7e6", "e2e3 e7e6"] {
        *counts.entry(after(moves)).or_default() += 1;
    }
    assert_eq!(counts.len(), 2);
    assert_eq!(counts[&after("e2e3 e7e6")], 2);
}

#[test]
fn a_played_move_is_its_move_and_the_position_after_it() {
    let initial = Position::initial();
    let first: Vec<Played> = LegalMoves::new(&initial).into_iter().collect();
    let again: HashSet<Played> = LegalMoves::new(&initial).into_iter().collect();
    assert_eq!((first.len(), again.len()), (20, 20));
    assert!(first.iter().all(|it| again.contains(it)));
    let hasher = RandomState::new();
    for one in &first {
        for other in &first {
            assert_eq!(one == other, one.mv == other.mv);
        }
    }
    // the same move from another position
    let knights_out = after("g1f3 g8f6 f3g1 f6g8");
    let mut repeated = LegalMoves::new(&knights_out).into_iter();
    let same_move = repeated.find(|it| it.mv == first[0].mv).unwrap();
    assert!(same_move != first[0] && !again.contains(&same_move));
    let hash_again = hasher.hash_one(again.get(&first[0]).unwrap());
    assert_eq!(hasher.hash_one(first[0]), hash_again);
}
