//! A call that breaks a condition of its contract panics with a sentence. Written for Cargo.

use chess_rules::{is_step, try_pair, Move, Position, Probes};
use pgn_game::{
    check, check_slice, convert, convert_checked, convert_slice, find_move, read_move,
    ArchiveItems, Converter, Games, Inlet, Items, Mode, Notation, Nowhere, Outlet, Sink,
};
use pgn_layout::{fits_tag_line, write_tag, CurrentLine, Layout};
use pgn_sections::BadGame;
use std::cell::RefCell;
use std::panic::{catch_unwind, set_hook, UnwindSafe};

const FULL: Mode = Mode::Full;

thread_local! {
    static SAID: RefCell<String> = const { RefCell::new(String::new()) };
}

/// The call panics with this sentence, and names a line of this file.
fn refuses<X>(sentence: &str, call: impl FnOnce() -> X + UnwindSafe) {
    set_hook(Box::new(|panic| SAID.set(panic.to_string())));
    assert!(catch_unwind(call).is_err(), "no panic: {sentence}");
    let said = SAID.take();
    assert!(said.contains(sentence), "{said}");
    assert!(said.contains("conditions.rs:"), "{said}");
}

/// Each of these calls does so.
macro_rules! refused {
    ($sentence:expr; $($call:expr;)+) => { $(refuses($sentence, move || $call);)+ };
}

#[test]
fn a_converter_has_a_level() {
    refused! { "the number of levels L is at least 1";
        Converter::<64, 0>::new(FULL);
        Games::<64, 0>::new(FULL);
        Items::<64, 0>::new();
        ArchiveItems::<64, 0>::new();
        convert_slice::<64, 0, _>(b"*", &mut Nowhere, FULL);
        convert::<64, 0, _, _>(&mut inlet(), &mut Nowhere, FULL);
        check_slice::<64, 0>(b"*", FULL);
        check::<64, 0, _>(&mut inlet(), FULL);
        convert_checked::<64, 0, _, _, _>(&mut inlet(), &mut inlet(), &mut Nowhere, FULL);
    }
    Converter::<0, 1>::new(FULL);
}

#[test]
fn a_converter_begins_within_the_limit() {
    refused! { "the number of levels L is at least 1, and the place at most 2^62";
        Converter::<64, 0>::begin_at(FULL, 7, false);
        Converter::<64, 33>::begin_at(FULL, (1 << 62) + 1, false);
    }
    let converter = Converter::<64, 33>::begin_at(FULL, 1 << 62, false);
    assert_eq!(converter.place(), 1 << 62);
}

fn inlet() -> Inlet<&'static [u8]> {
    Inlet::new(b"*")
}

fn finished() -> Converter<64, 33> {
    let mut converter = Converter::new(FULL);
    assert_eq!(converter.finish(&mut Nowhere), Ok(false));
    converter
}

#[test]
fn nothing_is_fed_after_the_end() {
    refused! { "feed comes before finish has returned Ok"; finished().feed(b"", &mut Nowhere); }
    refused! { "finish returns Ok once"; finished().finish(&mut Nowhere); }
    // After a fault both report it again.
    let mut converter = Converter::<64, 33>::new(FULL);
    let fault = converter.feed(b"&", &mut Nowhere).unwrap_err();
    assert_eq!(converter.finish(&mut Nowhere), Err(fault));
    assert_eq!(converter.feed(b"*", &mut Nowhere), Err(fault));
    assert_eq!(converter.finish(&mut Nowhere), Err(fault));
}

/// The longest value begins with a text, and then has a byte so many times.
#[test]
fn a_tag_pair_fits_on_a_line() {
    for (front, byte, times) in [("", "a", 248), ("", "\"", 124), ("\\", "a", 246)] {
        let longest = [front, &byte.repeat(times)].concat().into_bytes();
        let mut out = Outlet::new(Vec::new());
        write_tag(b"A", &longest, &mut out).unwrap();
        Layout::new().tag(b"A", &longest, &mut out).unwrap();
        assert_eq!(out.into_inner().len(), 2 * 255);
        let too_long: &[u8] = &[front, &byte.repeat(times + 1)].concat().into_bytes();
        assert!(!fits_tag_line(b"A", too_long));
        refused! { "a tag pair fits on a line of 255 bytes";
            write_tag(b"A", too_long, &mut Nowhere);
            Layout::new().tag(b"A", too_long, &mut Nowhere);
        }
    }
}

#[test]
fn a_token_has_1_to_79_bytes() {
    for token in [b"".as_slice(), &[b'a'; 80]] {
        refused! { "a token on a line has 1 to 79 bytes";
            CurrentLine::new().put(token, &mut Nowhere);
            CurrentLine::new().put_parts(token, b"", &mut Nowhere);
            Layout::new().put(token, &mut Nowhere);
        }
    }
    let mut out = Outlet::new(Vec::new());
    let mut line = CurrentLine::new();
    line.put(&[b'a'; 79], &mut out).unwrap();
    line.put_parts(&[b'b'; 78], b"c", &mut out).unwrap();
    line.end_game(&mut out).unwrap();
    assert_eq!(out.into_inner().len(), 2 * 80 + 1);
}

#[test]
fn a_sink_gets_a_byte() {
    refused! { "write_some takes at least one byte";
        Nowhere.write_some(b"");
        Outlet::new(Vec::new()).write_some(b"");
    }
}

#[test]
fn a_piece_of_a_text_ends_below_2_to_64() {
    let at = usize::MAX - 2;
    let game = move || BadGame {
        at,
        ..BadGame::new(0, 0)
    };
    refused! { "the pieces of a text have less than 2^64 bytes";
        game().next_section(b"e4 ", true);
    }
    let mut game = game();
    assert_eq!(game.next_section(b"e4", true), None);
    assert_eq!(game.at, usize::MAX);
}

#[test]
fn there_is_no_rank_8() {
    refused! { "a rank is from 0 to 7"; Position::initial().rank_numbers(8); }
}

#[test]
fn a_step_is_not_legal() {
    let position = Position::initial();
    let [legal, illegal] = ["e2e4", "e2e5"].map(|it| it.parse::<Move>().unwrap());
    refused! { "is_step takes a move that is not legal"; is_step(&position, &legal); }
    assert!(try_pair(&position, illegal, &mut Probes::new()).is_none());
    assert!(!is_step(&position, &illegal));
}

/// Used `Probes` are no error: the pairs are counted on top.
#[test]
fn a_move_is_counted_on_top() {
    let mut probes = Probes::new();
    let start = Position::initial();
    assert!(find_move(&start, b"Nf3", &mut probes).is_ok());
    assert!(find_move(&start, b"Nf3", &mut probes).is_ok());
    assert!(read_move(&start, b"e2e4", Notation::Uci, &mut probes).is_ok());
    assert!(read_move(&start, b"Nf3", Notation::San, &mut probes).is_ok());
    assert_eq!(probes.count(), 4);
}

#[test]
#[cfg(debug_assertions)]
fn a_move_that_is_written_or_played_is_legal() {
    use chess_rules::position_after;
    use chess_text::write_san;

    let position = Position::initial();
    let mv: Move = "e2e5".parse().unwrap();
    refused! { "position_after takes a legal move"; position_after(&position, &mv); }
    let mut played = find_move(&position, b"e4", &mut Probes::new()).unwrap();
    let san = write_san(&position, &played, &mut Probes::new());
    assert_eq!(san.as_slice(), b"e4");
    played.next = position;
    refused! { "write_san takes a legal move and the position after it";
        write_san(&position, &played, &mut Probes::new());
    }
}

#[test]
#[cfg(debug_assertions)]
fn a_move_that_was_found_has_the_pairs_of_its_candidates() {
    use chess_rules::Played;
    use chess_text::{read_fen, write_san_of};

    // Two knights go to d2.
    let position = read_fen(b"4k3/8/8/8/8/5N2/8/1N2K3 w - - 0 1").unwrap();
    let mut tried = Probes::new();
    let Played { mv, next } = find_move(&position, b"Nbd2", &mut tried).unwrap();
    let san = write_san_of(&position, &mv, &next, true, &mut tried);
    assert_eq!(san.as_slice(), b"Nbd2");
    let counted_anew = move || write_san_of(&position, &mv, &next, true, &mut Probes::new());
    assert!(catch_unwind(counted_anew).is_err());
}
