//! The structs as the C compiler has them. The test calls it: `CC`, or `cc`.

use crate::{
    PgnBadGame, PgnExplanation, PgnGame, PgnItems, PgnMove, PgnNumber, PgnPlies, PgnResult, PgnSection,
    PgnTag, PgnText,
};
use std::mem::{align_of, align_of_val, size_of, size_of_val};
use std::process::Command;
use std::{env, fs};

/// What C has to say of a struct, and of a field of it.
const HEAD: &str = r#"#include <stddef.h>
#include "pgn.h"
#define STRUCT(S, SIZE, ALIGN) _Static_assert(sizeof(S) == SIZE && _Alignof(S) == ALIGN, #S);
#define FIELD(S, F, AT, SIZE, ALIGN) _Static_assert(offsetof(S, F) == AT \
    && sizeof ((S *)0)->F == SIZE && _Alignof(((S *)0)->F) == ALIGN, #S "." #F);
"#;

/// The lines of a struct of Rust's for C, by a value of it, with all of its fields.
macro_rules! layout {
    ($name:literal, $type:ident { $($field:ident),* $(,)? }, $value:expr) => {{
        let value: $type = $value;
        let begin = &value as *const $type as usize;
        // A field that the list lacks is an error here.
        let $type { $($field),* } = &value;
        let (size, align) = (size_of::<$type>(), align_of::<$type>());
        let mut lines = format!("STRUCT({}, {size}, {align})\n", $name);
        $(
            let at = $field as *const _ as usize - begin;
            let (size, align) = (size_of_val($field), align_of_val($field));
            lines += &format!("FIELD({}, {}, {at}, {size}, {align})\n", $name, stringify!($field));
        )*
        lines
    }};
}

#[rustfmt::skip]
const NO_GAME: PgnBadGame = PgnBadGame {
    begin: 0, fault: 0, at: 0, comment_at: 0, escapes_at: 0, ends: 0, has_tags: 0,
    has_movetext: 0, is_behind_text: 0, has_comment: 0, has_escapes: 0,
};

#[rustfmt::skip]
fn structs() -> [String; 11] {
    [
        layout!("pgn_result", PgnResult { status, fault, place, written, games, plies, reason_at,
            message }, crate::pgn_check(b"")),
        layout!("pgn_text", PgnText { status, field, length },
            crate::pgn_fen_normalize(b"", &mut [])),
        layout!("pgn_move", PgnMove { status, fault, field, san, uci, fen },
            crate::pgn_san(b"", b"", 0)),
        layout!("pgn_plies", PgnPlies { status, fault, field, place, written, plies },
            crate::pgn_line(b"", b"", 0, &mut [])),
        layout!("pgn_game", PgnGame { status, fault, place, written, end, marker_at, plies,
            reason_at, marker, message, fen }, crate::pgn_next_game(b"", 0, 0, 0, &mut [])),
        layout!("pgn_item_lines", PgnItems { status, fault, place, written, next_item, end,
            reason_at, message }, crate::pgn_items(b"", 0, 0, 0, &mut [])),
        layout!("pgn_tag", PgnTag { status, name_at, name_length, value_at, value_length, next },
            crate::pgn_tag_at(b"", 0)),
        layout!("pgn_number", PgnNumber { status, unusual, place, number, before },
            crate::pgn_check_numbers(b"")),
        layout!("pgn_bad_game", PgnBadGame { begin, fault, at, comment_at, escapes_at, ends,
            has_tags, has_movetext, is_behind_text, has_comment, has_escapes }, NO_GAME),
        layout!("pgn_section", PgnSection { status, place },
            crate::pgn_next_section(&mut { NO_GAME }, b"", 1)),
        layout!("pgn_explanation", PgnExplanation { status, fault, field, form, piece, target,
            origins }, crate::pgn_explain(b"", b"")),
    ]
}

#[test]
fn the_structs_are_those_of_the_header() {
    let lines = structs().concat();
    assert_eq!(lines.lines().count(), 11 + 8 + 3 + 6 + 6 + 11 + 8 + 6 + 5 + 11 + 2 + 7);
    let file = env::temp_dir().join(format!("pgn_c-{}.c", std::process::id()));
    fs::write(&file, [HEAD, &lines].concat()).unwrap();
    let compiled = Command::new(env::var("CC").unwrap_or("cc".into()))
        .args(["-std=gnu11", "-fsyntax-only", "-I", env!("CARGO_MANIFEST_DIR")])
        .arg(&file)
        .status();
    fs::remove_file(&file).unwrap();
    assert!(compiled.unwrap().success());
}
