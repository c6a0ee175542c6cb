//! The errors are those of Rust: `?` takes each into a `Box<dyn Error>`. Written for Cargo.

use chess_rules::{Position, Probes};
use chess_text::{read_fen, read_form, resolve, SanFault, UciFault};
use pgn_game::{
    convert_slice, Converter, Games, Inlet, Items, LexReason, Mode, Nowhere, Outlet, ReadFailed,
    Reason, Sink, Source,
};
use std::error::Error;
use std::fmt::Debug;
use std::io::{self, Read, Write};

/// A reader and a writer that fail.
struct Broken;

impl Read for Broken {
    fn read(&mut self, _buffer: &mut [u8]) -> io::Result<usize> {
        Err(io::ErrorKind::Other.into())
    }
}

impl Write for Broken {
    fn write(&mut self, _bytes: &[u8]) -> io::Result<usize> {
        Err(io::ErrorKind::Other.into())
    }

    fn flush(&mut self) -> io::Result<()> {
        Err(io::ErrorKind::Other.into())
    }
}

/// A call that hands on whatever error it meets.
type Call = fn() -> Result<(), Box<dyn Error + Send + Sync>>;

#[test]
#[rustfmt::skip]
fn each_error_is_handed_on_in_the_words_of_the_program() {
    let calls: [(&str, Call); 6] = [
        ("byte 12: move is not legal", || {
            let text = b"1. e4 e5 2. Ke3 *";
            Ok(convert_slice::<64, 33, _>(text, &mut Nowhere, Mode::Full).map(|_| ())?)
        }),
        ("bad FEN, field 4", || Ok(read_fen(b"8/8/8/8/8/k7/p7/K7 w - e9 0 1").map(|_| ())?)),
        ("move is not legal", || {
            let form = read_form(b"Ke3").unwrap();
            Ok(resolve(&Position::initial(), &form, &mut Probes::new()).map(|_| ())?)
        }),
        ("output cannot be written", || Ok(Outlet::new(Broken).flush()?)),
        ("input cannot be read", || Ok(Inlet::new(Broken).read_some(&mut [0; 8]).map(|_| ())?)),
        ("bad FEN, field 7", || Err(Reason::BadFen(7).into())),
    ];
    for (words, call) in calls {
        assert_eq!(call().unwrap_err().to_string(), words);
    }
    assert_eq!(ReadFailed.to_string(), "input cannot be read");
}

#[test]
#[rustfmt::skip]
fn the_lexer_has_the_words_of_the_converter() {
    use LexReason::*;
    for reason in [
        StrayByte, ControlByte, Reserved, SymbolTooLong, StringTooLong, WordTooLong, LoneDollar,
        GlyphRange, BadSuffix, BraceInLineComment, UnclosedString, UnclosedComment,
    ] {
        assert_eq!(reason.to_string(), Reason::Lexical(reason).to_string());
    }
    let fault = pgn_lexer::LexFault { at: 3, reason: StrayByte };
    assert_eq!(fault.to_string(), "byte 3: stray byte");
}

#[test]
fn a_fen_and_a_move_have_the_words_of_the_converter() {
    for field in 1..=7 {
        let fault = chess_text::FenFault { field };
        assert_eq!(fault.to_string(), Reason::BadFen(field).to_string());
    }
    for (words, reason) in [
        (SanFault::NoMove.to_string(), Reason::IllegalMove),
        (SanFault::Ambiguous.to_string(), Reason::AmbiguousMove),
        (UciFault::NotAMove.to_string(), Reason::NotAMove),
        (UciFault::IllegalMove.to_string(), Reason::IllegalMove),
    ] {
        assert_eq!(words, reason.to_string());
    }
}

fn is_shown(value: impl Debug, begin: &str) {
    let text = format!("{value:?}");
    assert!(text.starts_with(begin), "{text}");
    assert!(text == begin || begin.ends_with(", "), "{text}");
}

#[test]
#[rustfmt::skip]
fn what_a_user_prints_can_be_printed() {
    let mut converter = Converter::<64, 33>::new(Mode::Full);
    converter.feed(b"e4 *", &mut Nowhere).unwrap();
    converter.finish(&mut Nowhere).unwrap();
    is_shown(converter, "Converter { place: 4, games: 1, fault: None, is_finished: true, .. }");
    let mut games = Games::<64, 33>::new(Mode::Full);
    games.next(&mut Inlet::new(b"e4 *".as_slice()), &mut Nowhere).unwrap();
    is_shown(&games, "Games { games: 1, .. }");
    let mut items = Items::<64, 33>::default();
    is_shown(&items, "Items { place: 0, games: 0, depth: 0, .. }");
    let mut source = Inlet::new(b"* 1. e4 (d4) *".as_slice());
    while items.depth() == 0 {
        items.next(&mut source).unwrap();
    }
    is_shown(items, "Items { place: 9, games: 1, depth: 1, .. }");
    let board = "rnbqkbnr/pppppppp/......../......../....P.../......../PPPP.PPP/RNBQKBNR";
    is_shown(games.position().unwrap(), &format!("Position {{ board: {board}, "));
}
