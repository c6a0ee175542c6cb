//! The condition of `Lexer::next` and `whole_token`. Written for Cargo.

use super::Lexer;
use crate::Outcome;

fn lexer_at(count: u64) -> Lexer {
    Lexer {
        count,
        ..Lexer::new()
    }
}

#[test]
#[should_panic(expected = "a text has at most 2^62 bytes")]
#[cfg(debug_assertions)]
fn a_byte_after_2_to_62_is_refused() {
    lexer_at((1 << 62) - 3).next(b"Nf3 ");
}

#[test]
fn the_last_byte_of_2_to_62_is_read() {
    let mut lexer = lexer_at((1 << 62) - 3);
    assert_eq!(lexer.next(b"Nf3").outcome, Outcome::NeedMore);
    assert_eq!(lexer.place(), 1 << 62);
}

#[test]
#[should_panic(expected = "a text has at most 2^62 bytes")]
#[cfg(debug_assertions)]
fn a_byte_after_2_to_62_is_refused_by_whole_token() {
    lexer_at((1 << 62) - 3).whole_token(b"Nf3 ", false);
}
