//! A missing Result takes the marker in items as in a converter, over all worked inputs. Written
//! for Cargo.

use pgn_game::{Converter, Fault, Fed, Inlet, Item, Items, Mode, Nowhere, Outlet};
use pgn_vectors::tables;
use std::io::{self, Read};

/// The tag sections of the games, and where each game ends. Then the fault, if there is one.
type Games = (Vec<(u64, Vec<u8>)>, Option<Fault>);

/// The games of a text, by a converter that writes nothing.
fn by_converter(text: &[u8]) -> Games {
    let mut converter = Converter::<64, 33>::new(Mode::Full);
    converter.take_marker_for_missing_result();
    let (mut from, mut games) = (0, Vec::new());
    loop {
        let fed = converter.feed(&text[from..], &mut Nowhere);
        let is_last = fed == Ok(Fed::All);
        let end = fed.and_then(|fed| match fed {
            Fed::Game(used) => Ok(Some(from + used)),
            Fed::All => Ok(converter.finish(&mut Nowhere)?.then_some(text.len())),
        });
        let mut section = Outlet::new(Vec::new());
        match end {
            Ok(Some(end)) => {
                converter.write_tags(&mut section).unwrap();
                games.push((end as u64, section.into_inner()));
                from = end;
            }
            Ok(None) => {}
            Err(fault) => return (games, Some(fault)),
        }
        if is_last {
            return (games, None);
        }
    }
}

/// Gives at most so many bytes a read.
struct Short<'a> {
    left: &'a [u8],
    most: usize,
}

impl Read for Short<'_> {
    fn read(&mut self, buffer: &mut [u8]) -> io::Result<usize> {
        let most = self.most.min(buffer.len());
        self.left.read(&mut buffer[..most])
    }
}

/// The games of a text, by its items.
fn by_items(text: &[u8], most: usize) -> Games {
    let mut items = Items::<64, 33>::new();
    items.take_marker_for_missing_result();
    let mut source = Inlet::new(Short { left: text, most });
    let mut games = Vec::new();
    loop {
        match items.next(&mut source) {
            Ok(Some(Item::Marker(marker))) => {
                assert_eq!(items.tag(b"Result"), Some(marker.text()));
                let mut section = Outlet::new(Vec::new());
                items.write_tags(&mut section).unwrap();
                games.push((items.place(), section.into_inner()));
            }
            Ok(Some(_)) => {}
            Ok(None) => return (games, None),
            Err(fault) => return (games, Some(fault)),
        }
    }
}

#[test]
fn a_missing_result_takes_the_marker_in_items_as_in_a_converter() {
    let (mut games, mut faults) = (0, 0);
    for vector in tables().into_iter().flatten() {
        let text = vector.input.as_bytes();
        let wanted = by_converter(text);
        for most in [1, 2, 3, 7, 64, 4096] {
            assert_eq!(by_items(text, most), wanted, "{} by {most}", vector.name);
        }
        games += wanted.0.len();
        faults += wanted.1.is_some() as usize;
    }
    assert!(
        games > 100 && faults > 100,
        "{games} games, {faults} faults"
    );
}
