//! How much room the readers of games have. Written for Cargo.

use pgn_game::{Converter, Games, Items};
use std::mem::size_of;

/// The bytes of one read.
const READ_LENGTH: usize = 4096;

#[test]
fn items_have_the_room_of_a_converter_and_one_read() {
    assert!(size_of::<Items<64, 33>>() <= size_of::<Games<64, 33>>());
    // The buffer also has two places in it.
    let places = 2 * size_of::<usize>();
    let room = size_of::<Converter<64, 33>>() + READ_LENGTH + places;
    assert!(size_of::<Games<64, 33>>() <= room);
}
