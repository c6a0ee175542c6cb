//! The condition of each call that takes `Probes`. Written for Cargo.

use super::Probes;
use crate::{has_legal_move, try_pair, LegalMoves, Position};
use std::panic::catch_unwind;

fn with_room_for(pairs: u32) -> Probes {
    let count = u32::MAX - pairs;
    Probes { count }
}

/// The room that a call needs, in words too, and the call.
type Row = (u32, &'static str, fn(&Position, &mut Probes));

#[test]
#[rustfmt::skip]
fn each_call_needs_room() {
    let rows: [Row; 3] = [
        (1, "1", |position, probes| {
            try_pair(position, "a1a1".parse().unwrap(), probes);
            assert_eq!(probes.count(), u32::MAX);
        }),
        (1024, "1,024", |position, probes| assert!(has_legal_move(position, probes))),
        (4096, "4,096", |it, probes| assert!(LegalMoves::new(it).next(probes).is_some())),
    ];
    let position = Position::initial();
    for (room, words, call) in rows {
        call(&position, &mut with_room_for(room));
        let refused = catch_unwind(|| call(&position, &mut with_room_for(room - 1)));
        let said = *refused.unwrap_err().downcast::<&str>().unwrap();
        assert_eq!(said, format!("the count of Probes has room for {words} more"));
    }
}
