//! The laws.

use crate::dice::Dice;
use chess_text::{read_fen, write_fen};
use pgn_game::{
    convert_checked, convert_slice, Converter, Fault, Fed, Games, Inlet, Mode, ReadFailed, Reason,
    Sink, Source, Totals, WriteFault,
};

/// The most bytes of a FEN that is looked for in a text.
const LONGEST_FEN: usize = 120;

/// What a run has written, and how it ended.
struct Run {
    written: Vec<u8>,
    verdict: Result<Totals, Fault>,
}

/// A sink that takes all bytes of a call.
#[derive(Default)]
struct Kept(Vec<u8>);

impl Sink for Kept {
    fn write_some(&mut self, bytes: &[u8]) -> Result<usize, WriteFault> {
        assert!(!bytes.is_empty(), "sink: a write without a byte");
        self.0.extend_from_slice(bytes);
        Ok(bytes.len())
    }

    fn flush(&mut self) -> Result<(), WriteFault> {
        Ok(())
    }
}

/// A sink that takes a few bytes a call, and fails once there is no room.
struct Narrow {
    written: Vec<u8>,
    room: usize,
    has_failed: bool,
    dice: Dice,
}

impl Sink for Narrow {
    fn write_some(&mut self, bytes: &[u8]) -> Result<usize, WriteFault> {
        assert!(!self.has_failed, "sink: a write after one that failed");
        if self.room == 0 {
            self.has_failed = true;
            return Err(WriteFault);
        }
        let count = (1 + self.dice.below(7)).min(bytes.len()).min(self.room);
        self.written.extend_from_slice(&bytes[..count]);
        self.room -= count;
        Ok(count)
    }

    fn flush(&mut self) -> Result<(), WriteFault> {
        Ok(())
    }
}

/// A source that gives a few bytes a call.
struct Drops<'a> {
    left: &'a [u8],
    most: usize,
    dice: Dice,
}

impl Source for Drops<'_> {
    fn read_some(&mut self, buffer: &mut [u8]) -> Result<usize, ReadFailed> {
        let count = (1 + self.dice.below(self.most))
            .min(buffer.len())
            .min(self.left.len());
        buffer[..count].copy_from_slice(&self.left[..count]);
        self.left = &self.left[count..];
        Ok(count)
    }
}

/// Checks all laws on this text.
pub fn check(text: &[u8]) {
    let mut dice = Dice::of(text);
    let full = export::<64, 33>(text, Mode::Full);
    let reduced = export::<64, 33>(text, Mode::Reduced);
    for (mode, run) in [(Mode::Full, &full), (Mode::Reduced, &reduced)] {
        let most = *dice.pick(&[1, 3, 40]);
        pieces(text, mode, run, most, &mut dice);
        reads(text, mode, run, most);
        lines(run);
        fixed_point(mode, run);
    }
    failing_sink(text, &full, &mut dice);
    checked(text, &full);
    limits(text, &full);
    fen(text);
    for value in text.split(|byte| *byte == b'"').skip(1).step_by(2) {
        fen(value);
    }
}

fn export<const T: usize, const L: usize>(text: &[u8], mode: Mode) -> Run {
    let mut out = Kept::default();
    let verdict = convert_slice::<T, L, _>(text, &mut out, mode);
    if let Err(fault) = verdict {
        assert!(
            fault.at <= text.len() as u64,
            "place: {fault} of {} bytes",
            text.len()
        );
    }
    Run {
        written: out.0,
        verdict,
    }
}

/// *Pieces*: pieces of any lengths give the same bytes and the same verdict as the whole.
fn pieces(text: &[u8], mode: Mode, whole: &Run, most: usize, dice: &mut Dice) {
    let mut out = Kept::default();
    let mut converter = Converter::<64, 33>::new(mode);
    let (mut at, mut plies) = (0, 0);
    let fault = loop {
        if at == text.len() {
            match converter.finish(&mut out) {
                Ok(has_game) => plies += look(&converter, has_game),
                Err(fault) => break Some(fault),
            }
            break None;
        }
        let length = dice.below(most + 1).min(text.len() - at);
        match converter.feed(&text[at..at + length], &mut out) {
            Ok(Fed::All) => at += length,
            Ok(Fed::Game(used)) => {
                assert!(used <= length, "pieces: more bytes used than given");
                at += used;
                plies += look(&converter, true);
            }
            Err(fault) => break Some(fault),
        }
    };
    assert!(out.0 == whole.written, "pieces: other bytes are written");
    match (&whole.verdict, fault) {
        (Ok(totals), None) => {
            let counts = (converter.games(), plies, converter.most_probes());
            let wanted = (totals.games, totals.plies, totals.most_probes);
            assert_eq!(counts, wanted, "pieces: other counts");
        }
        (Err(fault), Some(other)) => {
            assert_eq!(*fault, other, "pieces: another fault");
            told_again(converter, other, out);
        }
        _ => panic!("pieces: a fault, or none: {fault:?}"),
    }
}

/// What can be asked of a game that was finished; the number of its plies.
fn look(converter: &Converter<64, 33>, has_game: bool) -> u64 {
    assert_eq!(
        converter.position().is_some(),
        has_game,
        "pieces: the position of a game"
    );
    assert_eq!(
        converter.tag(b"Result").is_some(),
        has_game,
        "pieces: the Result of a game"
    );
    assert!(
        converter.most_probes() <= 1040,
        "pieces: more than 1,040 pairs for a move"
    );
    converter.plies()
}

/// *Told again*: after a fault each call reports it again, and writes nothing.
fn told_again(mut converter: Converter<64, 33>, fault: Fault, mut out: Kept) {
    let length = out.0.len();
    for piece in [b"".as_slice(), b"*", b"1. e4 *\n[A \"b\"]"] {
        assert_eq!(
            converter.feed(piece, &mut out),
            Err(fault),
            "told again: feed"
        );
        assert_eq!(converter.finish(&mut out), Err(fault), "told again: finish");
    }
    assert_eq!(
        out.0.len(),
        length,
        "told again: bytes are written after a fault"
    );
}

/// *Reads*: games one at a time from a source of short reads give the same as the whole.
fn reads(text: &[u8], mode: Mode, whole: &Run, most: usize) {
    let mut out = Kept::default();
    let mut source = Drops {
        left: text,
        most,
        dice: Dice::of(text),
    };
    let mut games = Games::<64, 33>::new(mode);
    let mut plies = 0;
    let verdict = loop {
        match games.next(&mut source, &mut out) {
            Ok(true) => plies += games.plies(),
            Ok(false) => break Ok((games.games(), plies)),
            Err(fault) => break Err(fault),
        }
    };
    assert!(out.0 == whole.written, "reads: other bytes are written");
    let wanted = whole.verdict.map(|totals| (totals.games, totals.plies));
    assert_eq!(verdict, wanted, "reads: another verdict");
}

/// *Lines*: a line of movetext has fewer than 80 bytes, one of a tag pair at most 255 with its LF.
fn lines(run: &Run) {
    for line in run.written.split(|byte| *byte == b'\n') {
        let most = if line.starts_with(b"[") { 254 } else { 79 };
        assert!(line.len() <= most, "lines: {} bytes", line.len());
        assert!(!line.ends_with(b" "), "lines: a space at the end");
    }
}

/// *Fixed point*: the export of an export is itself, and has as many games and plies.
fn fixed_point(mode: Mode, run: &Run) {
    let Ok(totals) = run.verdict else { return };
    let again = export::<64, 33>(&run.written, mode);
    match again.verdict {
        Ok(others) => {
            assert!(again.written == run.written, "fixed point: other bytes");
            let counts = |it: Totals| (it.games, it.plies);
            assert_eq!(counts(others), counts(totals), "fixed point: other counts");
        }
        // Defaults of the roster are pairs too, so an export can have more than 64.
        Err(fault) => {
            let is_long = most_tags(&run.written) > 64;
            assert!(
                is_long && fault.reason == Reason::TooManyTags,
                "fixed point: {fault}"
            );
        }
    }
}

/// The most tag lines one after another.
fn most_tags(text: &[u8]) -> usize {
    let (mut most, mut count) = (0, 0);
    for line in text.split(|byte| *byte == b'\n') {
        count = if line.starts_with(b"[") { count + 1 } else { 0 };
        most = most.max(count);
    }
    most
}

/// *Failing sink*: a sink that fails has taken exactly as many bytes of the output as it has room.
fn failing_sink(text: &[u8], whole: &Run, dice: &mut Dice) {
    if whole.written.is_empty() {
        return;
    }
    let room = dice.below(whole.written.len());
    let mut out = Narrow {
        written: Vec::new(),
        room,
        has_failed: false,
        dice: Dice::of(text),
    };
    let verdict = convert_slice::<64, 33, _>(text, &mut out, Mode::Full);
    assert!(
        out.written == whole.written[..room],
        "failing sink: other bytes"
    );
    let reason = verdict.map(|_| ()).map_err(|fault| fault.reason);
    assert_eq!(
        reason,
        Err(Reason::WriteFault),
        "failing sink: another verdict"
    );
}

/// *Checked*: two readings reject what export rejects, but for a Result that is missing.
fn checked(text: &[u8], whole: &Run) {
    let mut out = Kept::default();
    let (mut first, mut second) = (Inlet::new(text), Inlet::new(text));
    let verdict = convert_checked::<64, 33, _, _, _>(&mut first, &mut second, &mut out, Mode::Full);
    match (whole.verdict, verdict) {
        (Ok(totals), Ok(others)) => {
            let counts = |it: Totals| (it.games, it.plies);
            assert_eq!(counts(others), counts(totals), "checked: other counts");
            assert!(out.0 == whole.written, "checked: other bytes");
        }
        (Ok(_), Err(fault)) => panic!("checked: {fault}, where export has no fault"),
        (Err(fault), Ok(_)) => {
            assert_eq!(
                fault.reason,
                Reason::ResultDiffers,
                "checked: a fault is passed over"
            );
        }
        (Err(fault), Err(other)) => {
            let is_later = other.at > fault.at && fault.reason == Reason::ResultDiffers;
            assert!(
                other == fault || is_later,
                "checked: {other}, where export has {fault}"
            );
        }
    }
    if verdict.is_ok() {
        fixed_point(
            Mode::Full,
            &Run {
                written: out.0,
                verdict,
            },
        );
    }
}

/// *Limits*: small limits give a front of what large ones give, and fail only for the limits.
fn limits(text: &[u8], large: &Run) {
    let small = export::<3, 2>(text, Mode::Full);
    assert!(
        large.written.starts_with(&small.written),
        "limits: other bytes"
    );
    match (large.verdict, small.verdict) {
        (Ok(totals), Ok(others)) => assert_eq!(others, totals, "limits: other counts"),
        (Err(fault), Ok(_)) => panic!("limits: {fault} with large ones alone"),
        (large, Err(fault)) if large != Err(fault) => {
            let is_limit = matches!(fault.reason, Reason::TooManyTags | Reason::TooDeep);
            assert!(is_limit, "limits: {fault} with small ones");
            assert!(
                large.map_or_else(|it| fault.at <= it.at, |_| true),
                "limits: the place"
            );
        }
        _ => {}
    }
}

/// *FEN*: the canonical text of a position spells it, and is no longer than another.
fn fen(text: &[u8]) {
    if text.len() > LONGEST_FEN {
        return;
    }
    let Ok(position) = read_fen(text) else { return };
    let written = write_fen(&position);
    assert!(written.len() <= text.len(), "FEN: longer than its spelling");
    let again = read_fen(&written).unwrap_or_else(|fault| panic!("FEN: canonical, and {fault}"));
    assert!(
        write_fen(&again) == written,
        "FEN: the canonical text spells another position"
    );
    let parts = |it: &chess_rules::Position| (it.side(), it.rights(), it.target(), it.full());
    assert_eq!(parts(&again), parts(&position), "FEN: other parts");
}
