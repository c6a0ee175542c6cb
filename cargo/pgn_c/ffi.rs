//! The functions that C calls, as `pgn.h` declares them. **Not proved.**
//!
//! Each makes slices of pointers and lengths, and calls the function of the same name in this crate.
//! This is the only file of the workspace with unsafe code. A pointer may be null here where its
//! length is 0. With another length, or for a struct, the status is then `NO_MODE`, and nothing is
//! read or written.
#![allow(unsafe_code)]

use crate::explanation::no_explanation;
use crate::game_result::no_game;
use crate::items::plain_result;
use crate::line_of_play::no_line_in_format;
use crate::pgn_result::{no_mode, NO_MODE};
use crate::san::no_notation;
use crate::{
    PgnBadGame, PgnExplanation, PgnGame, PgnItems, PgnMove, PgnNumber, PgnPlies, PgnResult, PgnSection,
    PgnTag, PgnText,
};
use std::slice;

type Bytes = *const u8;
type Room = *mut u8;

/// The bytes that C passes. `None` if the pointer is null, and the length is not 0.
///
/// # Safety
///
/// The pointer is null, or it points to so many bytes of one object, at most 2^63 - 1. No one
/// writes them while the slice lives.
unsafe fn text_of<'a>(text: Bytes, length: usize) -> Option<&'a [u8]> {
    if text.is_null() {
        return (length == 0).then_some(&[]);
    }
    Some(unsafe { slice::from_raw_parts(text, length) })
}

/// The buffer that C passes. `None` if the pointer is null, and the capacity is not 0.
///
/// # Safety
///
/// As for `text_of`, and no one reads the bytes either while the slice lives.
unsafe fn buffer_of<'a>(buffer: Room, capacity: usize) -> Option<&'a mut [u8]> {
    if buffer.is_null() {
        return (capacity == 0).then_some(&mut []);
    }
    Some(unsafe { slice::from_raw_parts_mut(buffer, capacity) })
}

#[no_mangle]
extern "C" fn pgn_version() -> u32 {
    crate::pgn_version()
}

/// Exports functions. C passes perhaps a `*struct`, texts, each as a pointer with its `[length]`,
/// then words, then a buffer behind `=>`, and perhaps a last word. If the reference or a slice
/// cannot be made, `else` is returned.
macro_rules! exports {
    ($(
        $name:ident(
            $(*$struct:ident: $struct_type:ty,)?
            $($text:ident[$length:ident]),* $(; $($word:ident: $type:ty),*)?
            $(=> $buffer:ident[$capacity:ident] $(, $last:ident: $last_type:ty)?)?
        ) -> $result:ty, else $otherwise:expr;
    )*) => {$(
        /// # Safety
        ///
        /// The conditions of `pgn.h` hold. No one else uses what the call may change.
        #[no_mangle]
        unsafe extern "C" fn $name(
            $($struct: *mut $struct_type,)?
            $($text: Bytes, $length: usize,)*
            $($($word: $type,)*)?
            $($buffer: Room, $capacity: usize, $($last: $last_type)?)?
        ) -> $result {
            match unsafe {
                (
                    $($struct.as_mut(),)? $(text_of($text, $length),)*
                    $(buffer_of($buffer, $capacity),)?
                )
            } {
                ($(Some($struct),)? $(Some($text),)* $(Some($buffer),)?) => {
                    crate::$name($($struct,)? $($text,)* $($($word,)*)? $($buffer, $($last)?)?)
                }
                _ => $otherwise,
            }
        }
    )*};
}

exports! {
    pgn_check(text[length]) -> PgnResult, else no_mode();

    pgn_convert(text[length] => buffer[capacity], mode: u32) -> PgnResult, else no_mode();

    pgn_fen_normalize(fen[length] => buffer[capacity]) -> PgnText,
    else PgnText { status: NO_MODE, field: 0, length: 0 };

    pgn_key(fen[length] => buffer[capacity]) -> PgnText,
    else PgnText { status: NO_MODE, field: 0, length: 0 };

    pgn_san(fen[fen_length], text[length]; notation: u32) -> PgnMove, else no_notation();

    pgn_line(fen[fen_length], text[length]; format: u32 => buffer[capacity]) -> PgnPlies,
    else no_line_in_format();

    pgn_next_game(text[length]; from: usize, mode: u32, missing_result: u32 => buffer[capacity])
        -> PgnGame, else no_game(NO_MODE);

    pgn_read_game(text[length]; from: usize, mode: u32, missing_result: u32 => buffer[capacity])
        -> PgnGame, else no_game(NO_MODE);

    pgn_items(text[length]; from: usize, first_item: u64, fields: u32 => buffer[capacity])
        -> PgnItems, else plain_result(NO_MODE, 0, 0);

    pgn_tag_at(text[length]; at: usize) -> PgnTag,
    else PgnTag {
        status: NO_MODE, name_at: 0, name_length: 0, value_at: 0, value_length: 0, next: 0
    };

    pgn_check_numbers(text[length]) -> PgnNumber,
    else PgnNumber { status: NO_MODE, unusual: 0, place: 0, number: 0, before: 0 };

    pgn_explain(fen[fen_length], text[length]) -> PgnExplanation,
    else PgnExplanation { status: NO_MODE, ..no_explanation(0, 0) };

    pgn_next_section(*game: PgnBadGame, piece[length]; is_last: u32) -> PgnSection,
    else PgnSection { status: NO_MODE, place: 0 };
}
