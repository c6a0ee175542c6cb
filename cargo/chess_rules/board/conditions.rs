//! The conditions of `Board::push_rank`, and what `Position::build_on` checks of them. Written for
//! Cargo.

use super::{Board, Squares};
use crate::{Colour, Position, PositionFault};

fn build_on(board: Board) -> Result<Position, PositionFault> {
    let rights = Position::initial().rights();
    Position::build_on(board, Colour::White, rights, None, 0, 1)
}

#[test]
#[should_panic(expected = "push_rank takes the word of a rank")]
#[cfg(debug_assertions)]
fn a_black_piece_without_a_kind_is_refused() {
    Board::empty().push_rank(0x0100_0000);
}

#[test]
#[should_panic(expected = "each word of push_rank was that of a rank")]
fn no_position_has_a_black_piece_without_a_kind() {
    let black = Squares::of_bits(1);
    let _ = build_on(Board { black, ..Board::empty() });
}

#[test]
#[should_panic(expected = "each word of push_rank was that of a rank")]
fn no_position_has_a_piece_of_all_three_sets() {
    let all = Squares::of_bits(1 << 63);
    let (straight, diagonal, near) = (all, all, all);
    let _ = build_on(Board { straight, diagonal, near, ..Board::empty() });
}

#[test]
fn a_board_of_ranks_is_taken() {
    let mut board = Board::empty();
    assert_eq!(build_on(board).err(), Some(PositionFault::Kings));
    // A white king on e2, and a black one on e1.
    board.push_rank(0x0010_1000);
    board.push_rank(0x1010_1000);
    assert_eq!(build_on(board).err(), Some(PositionFault::KingCapturable));
    assert_eq!(build_on(Board::initial()).map(|it| it.full()), Ok(1));
}
