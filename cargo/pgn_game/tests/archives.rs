//! Bad games of an archive are skipped as by a converter and `next_section`. Written for Cargo.

use pgn_game::{
    ArchiveItems, Converter, Fault, Fed, Inlet, Item, Mode, Nowhere, Reason, Rewinds, SliceSource,
};
use pgn_sections::next_section;
use std::cell::Cell;
use std::io::{self, Cursor, Read, Seek, SeekFrom};
use std::rc::Rc;

/// Texts with bad games. Each is also read with bytes changed, left out and put in.
const TEXTS: [&str; 6] = [
    "1. e4 e9 *\n\n[White \"Ada\"]\n\n1. d4 *\n",
    "[Event \"a\"]\n\n1. e4 *\n\n[Event \"b\"]\n\n1. e5 *\n\n\
     % escape\n[Event \"c\"]\n\n1. c4 1-0\n",
    "[Event \"a\"]\r\n\r\n1. e4 {never closed *\r\n\r\n[Event \"b\"]\r\n\r\n1. d4 *\r\n",
    "[Event \"a\"]\n[Result \"1-0\"]\n\n1. e4 0-1\n\n[Event \"b\"]\n\n1. d4 d5 (1... Nf6) *",
    "* ? \u{feff}[Event \"a\"]\n1. e4 e5 2. Ke3 *\n\
     \u{feff}[Event \"b\"]\n1. d4 Nf6 2. c4 e6 *\n\n*\n",
    "1. e4 *\n\n1. d5 *\n\n1. c4 *\n\nWhite \"Ada\"]\n[Black \"Ben\"]\n\n1. e4 e5 1/2-1/2\n",
];

/// Numbers that are the same in each run.
struct Numbers(u64);

impl Numbers {
    fn below(&mut self, end: usize) -> usize {
        let next = self.0.wrapping_mul(6364136223846793005);
        self.0 = next.wrapping_add(1442695040888963407);
        (self.0 >> 33) as usize % end
    }
}

/// The text with one to three changes.
fn changed(text: &str, numbers: &mut Numbers) -> Vec<u8> {
    let mut text = text.as_bytes().to_vec();
    for _ in 0..=numbers.below(3) {
        let at = numbers.below(text.len());
        match numbers.below(3) {
            0 => text[at] = b"{}[]\"%*;\n\r e9\xef"[numbers.below(14)],
            1 => drop(text.remove(at)),
            _ => text.insert(at, b"{}[]\"%*;\n\r e9\xef"[numbers.below(14)]),
        }
    }
    text
}

/// A fault, and where reading goes on behind it.
type Skip = (Fault, Option<u64>);

/// The faults of a text, the places behind them, and the number of games, by a `Converter`.
fn by_converter(text: &[u8]) -> (Vec<Skip>, u64) {
    let (mut from, mut skips, mut games) = (0, Vec::new(), 0);
    loop {
        let in_first_column = from == 0 || matches!(text[from - 1], b'\r' | b'\n');
        let mut converter = Converter::<64, 33>::begin_at(Mode::Full, from as u64, in_first_column);
        let fed = converter.feed(&text[from..], &mut Nowhere);
        let end = fed.and_then(|fed| match fed {
            Fed::Game(used) => Ok(Some(from + used)),
            Fed::All => Ok(converter.finish(&mut Nowhere)?.then_some(text.len())),
        });
        let next = match end {
            Ok(end) => {
                games += end.is_some() as u64;
                end
            }
            Err(fault) => {
                let place = next_section(text, from, fault.at as usize);
                skips.push((fault, place.map(|it| it as u64)));
                place
            }
        };
        match next {
            Some(place) => from = place,
            None => return (skips, games),
        }
    }
}

/// The same by `ArchiveItems`.
fn by_items<R: Rewinds>(source: &mut R) -> (Vec<Skip>, u64) {
    let mut archive = ArchiveItems::<64, 33>::new();
    let mut skips = Vec::new();
    loop {
        match archive.next(source) {
            Ok(Some(_)) => {}
            Ok(None) => return (skips, archive.games()),
            Err(fault) => {
                assert_eq!(archive.next(source), Err(fault));
                let goes_on = archive.skip_bad_game(source).unwrap();
                skips.push((fault, goes_on.then(|| archive.items().place())));
            }
        }
    }
}

/// Gives at most so many bytes a read. It fails at the call that is behind so many.
struct Short {
    text: Cursor<Vec<u8>>,
    most: usize,
    left: Rc<Cell<usize>>,
}

impl Short {
    fn called(&mut self) -> io::Result<&mut Cursor<Vec<u8>>> {
        let left = self.left.get();
        self.left.set(left.wrapping_sub(1));
        let text = (left > 0).then_some(&mut self.text);
        text.ok_or(io::ErrorKind::Other.into())
    }
}

impl Read for Short {
    fn read(&mut self, buffer: &mut [u8]) -> io::Result<usize> {
        let most = self.most.min(buffer.len());
        self.called()?.read(&mut buffer[..most])
    }
}

impl Seek for Short {
    fn seek(&mut self, to: SeekFrom) -> io::Result<u64> {
        self.called()?.seek(to)
    }
}

/// Such a source, and how many calls are left before the one that fails.
fn short(text: &[u8], most: usize) -> (Inlet<Short>, Rc<Cell<usize>>) {
    let (text, calls) = (Cursor::new(text.to_vec()), Rc::new(Cell::new(usize::MAX)));
    let left = calls.clone();
    (Inlet::new(Short { text, most, left }), calls)
}

fn are_skipped(text: &[u8]) -> usize {
    let wanted = by_converter(text);
    let said = String::from_utf8_lossy(text);
    assert_eq!(by_items(&mut SliceSource::new(text)), wanted, "{said}");
    for most in [1, 2, 3, 7, 4096] {
        let found = by_items(&mut short(text, most).0);
        assert_eq!(found, wanted, "{said} by {most}");
    }
    wanted.0.len()
}

#[test]
fn bad_games_are_skipped_where_next_section_says() {
    let mut numbers = Numbers(1);
    let mut skips = 0;
    for text in TEXTS {
        assert!(are_skipped(text.as_bytes()) > 0, "{text}");
        for _ in 0..400 {
            skips += are_skipped(&changed(text, &mut numbers));
        }
    }
    assert!(skips > 1000, "{skips}");
}

#[test]
fn a_bad_game_is_longer_than_a_read() {
    let words = "word ".repeat(3000);
    let bad = format!("1. e4 e9 {{{words}}} *\n\n");
    let text = format!("{bad}[White \"Ada\"]\n\n1. d4 *\n");
    let (skips, games) = by_items(&mut short(text.as_bytes(), 1000).0);
    assert_eq!((skips.len(), games), (1, 1));
    assert_eq!(skips[0].1, Some(bad.len() as u64));
}

#[test]
fn a_failed_call_leaves_the_items_as_they_were() {
    let text = TEXTS[0].as_bytes();
    let mut failed = 0;
    for fails_at in 0.. {
        let (mut source, left) = short(text, 5);
        let mut archive = ArchiveItems::<64, 33>::new();
        let fault = loop {
            if let Err(fault) = archive.next(&mut source) {
                break fault;
            }
        };
        left.set(fails_at);
        match archive.skip_bad_game(&mut source) {
            Ok(goes_on) => {
                assert!(goes_on && left.get() <= fails_at);
                break;
            }
            Err(unread) => assert_eq!(unread.reason, Reason::ReadFault),
        }
        failed += 1;
        assert_eq!(archive.next(&mut source), Err(fault));
        assert_eq!(archive.skip_bad_game(&mut source), Ok(true));
        assert_eq!(archive.next(&mut source), Ok(Some(Item::Tags)));
        assert_eq!(archive.items().tag(b"White"), Some(b"Ada".as_slice()));
    }
    // The source is set twice, and read to the end of the line that shows the place, by 5 bytes.
    assert!(failed >= 2 + 6, "{failed}");
}

#[test]
fn a_read_that_failed_is_no_game() {
    let (mut source, left) = short(b"1. e4 e9", 5);
    left.set(0);
    let mut archive = ArchiveItems::<64, 33>::new();
    let fault = archive.next(&mut source).unwrap_err();
    assert_eq!(fault.reason, Reason::ReadFault);
    let calls = left.get();
    assert_eq!(archive.skip_bad_game(&mut source), Err(fault));
    let mut archive = ArchiveItems::<64, 33>::new();
    assert_eq!(archive.skip_bad_game(&mut source), Ok(false));
    assert_eq!(left.get(), calls);
}

#[test]
fn a_missing_result_takes_the_marker_behind_a_bad_game_too() {
    let mut source = SliceSource::new(b"1. e4 e9 *\n\n[White \"Ada\"]\n\n1. d4 1-0\n");
    let mut archive = ArchiveItems::<64, 33>::new();
    archive.take_marker_for_missing_result();
    while archive.next(&mut source).is_ok() {}
    assert_eq!(archive.skip_bad_game(&mut source), Ok(true));
    while let Some(item) = archive.next(&mut source).unwrap() {
        if let Item::Marker(_) = item {
            assert_eq!(archive.items().tag(b"Result"), Some(b"1-0".as_slice()));
        }
    }
    assert_eq!(archive.games(), 1);
}
