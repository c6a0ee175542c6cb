//! A change of a text that knows what may come next: it cuts the text at its fault, or anywhere,
//! and goes on with tag pairs, legal moves, variations, comments, NAGs and markers.

use crate::dice::Dice;
use chess_rules::{
    in_check, origins, try_pair, Colour, Kind, Move, Position, Probes, Promotion, Square,
};
use chess_text::{read_fen, write_san, Played};
use pgn_game::{convert_slice, find_move, Marker, Mode, Nowhere};
use pgn_lexer::{Lexer, Outcome, TokenKind};

/// Positions with castling, promotions, en passant, pins, many queens, and clocks near their end.
const STARTS: [&str; 9] = [
    "r3k2r/8/8/8/8/8/8/R3K2R w KQkq - 0 1",
    "8/2P1k1P1/8/8/8/8/2p3p1/4K3 w - - 0 1",
    "4k3/8/8/2PpP3/8/8/8/4K3 w - d6 0 2",
    "8/8/8/8/k1pP3R/8/8/4K3 b - d3 0 2",
    "4r1k1/8/8/8/7b/8/3NBN2/4K3 w - - 0 1",
    "6k1/5ppp/8/8/8/8/8/K2RQ3 w - - 98 99997",
    "k7/8/1NNN4/8/1N1N4/8/8/K7 w - - 0 1",
    "q6q/8/8/3q4/8/8/8/k2K3q b - - 3 7",
    "7k/5Q2/8/6K1/8/8/8/8 w - - 0 1",
];

const MARKERS: [Marker; 4] = [
    Marker::Unknown,
    Marker::WhiteWins,
    Marker::BlackWins,
    Marker::Draw,
];

const TAGS: [&str; 8] = [
    "[Event \"a \\\"b\\\" \\\\ c\"]",
    "[White \"Ada\"]",
    "[Result \"*\"]",
    "[Result \"1-0\"]",
    "[SetUp \"1\"]",
    "[Opening_2 \"\"]",
    "[zz \"x\"]",
    "[ECO \"C20\"]",
];

/// Where a text ends: the position there, and the one before its last move, level by level.
struct End {
    levels: Vec<(Option<Position>, Position)>,
    is_between_games: bool,
}

impl End {
    fn new() -> End {
        End {
            levels: vec![(None, Position::initial())],
            is_between_games: true,
        }
    }

    fn level(&mut self) -> &mut (Option<Position>, Position) {
        self.levels.last_mut().unwrap()
    }

    fn play(&mut self, next: Position) {
        let now = self.level().1;
        *self.level() = (Some(now), next);
    }

    /// Takes a token of movetext.
    fn take(&mut self, kind: TokenKind<'_>) {
        match kind {
            TokenKind::Asterisk => *self = End::new(),
            TokenKind::Symbol(text) if Marker::of_symbol(text).is_some() => {
                *self = End::new();
            }
            TokenKind::Symbol(text) => {
                self.is_between_games = false;
                let now = self.level().1;
                if let Ok(played) = find_move(&now, text, &mut Probes::new()) {
                    self.play(played.next);
                }
            }
            TokenKind::LeftParen => {
                if let (Some(before), _) = *self.level() {
                    self.levels.push((None, before));
                }
            }
            TokenKind::RightParen if self.levels.len() > 1 => {
                self.levels.pop();
            }
            _ => {}
        }
    }
}

/// The end of a text without a fault.
fn end_of(text: &[u8]) -> End {
    let (mut lexer, mut at, mut end) = (Lexer::new(), 0, End::new());
    let (mut is_in_tag, mut is_fen) = (false, false);
    loop {
        let scan = lexer.next(&text[at..]);
        at += scan.used;
        let Outcome::Token(token) = scan.outcome else {
            return end;
        };
        match token.kind {
            TokenKind::LeftBracket => (is_in_tag, end.is_between_games) = (true, false),
            TokenKind::RightBracket => is_in_tag = false,
            TokenKind::Symbol(name) if is_in_tag => is_fen = name == b"FEN",
            TokenKind::Str(value) if is_in_tag && is_fen => {
                if let Ok(position) = read_fen(value) {
                    end.levels = vec![(None, position)];
                }
            }
            kind if !is_in_tag => end.take(kind),
            _ => {}
        }
    }
}

/// The text without its first fault and what is behind it.
fn without_fault(mut text: Vec<u8>) -> Vec<u8> {
    while let Err(fault) = convert_slice::<64, 33, _>(&text, &mut Nowhere, Mode::Full) {
        // A text that only ends too early has no token to cut.
        if fault.at as usize >= text.len() {
            break;
        }
        text.truncate(fault.at as usize);
    }
    text
}

/// All legal moves.
fn moves(position: &Position) -> Vec<Played> {
    const KINDS: [Kind; 6] = [
        Kind::King,
        Kind::Queen,
        Kind::Rook,
        Kind::Bishop,
        Kind::Knight,
        Kind::Pawn,
    ];
    const PIECES: [Option<Promotion>; 5] = [
        None,
        Some(Promotion::Queen),
        Some(Promotion::Rook),
        Some(Promotion::Bishop),
        Some(Promotion::Knight),
    ];
    let mut found = Vec::new();
    for at in 0..64 {
        let to = Square::new(at % 8, at / 8).unwrap();
        for kind in KINDS {
            for from in origins(position, kind, to) {
                for promotion in PIECES {
                    let mv = Move {
                        from,
                        to,
                        promotion,
                    };
                    if let Some(next) = try_pair(position, mv, &mut Probes::new()) {
                        found.push(Played { mv, next });
                    }
                }
            }
        }
    }
    found
}

/// A legal move, mostly a check, a capture, a promotion or a castling if there is one.
fn some_move(position: &Position, dice: &mut Dice) -> Option<Played> {
    let all = moves(position);
    if all.is_empty() {
        return None;
    }
    let is_rare = |it: &Played| {
        let king = position
            .at(it.mv.from)
            .is_some_and(|piece| piece.kind == Kind::King);
        let castles = king && it.mv.from.file().abs_diff(it.mv.to.file()) > 1;
        in_check(&it.next)
            || it.mv.promotion.is_some()
            || position.at(it.mv.to).is_some()
            || castles
    };
    let rare: Vec<&Played> = all.iter().filter(|it| is_rare(it)).collect();
    if !rare.is_empty() && dice.one_in(2) {
        return Some(**dice.pick(&rare));
    }
    Some(*dice.pick(&all))
}

/// The move in SAN, now and then with more or less than belongs there.
fn text_of(position: &Position, played: &Played, dice: &mut Dice) -> Vec<u8> {
    let mut san = write_san(position, played, &mut Probes::new()).to_vec();
    match dice.below(24) {
        0 => san.retain(|byte| *byte != b'x'),
        1 => san.retain(|byte| !b"+#".contains(byte)),
        2 => san.push(*dice.pick(b"+#!?")),
        3 => {
            // The origin in full, where the text begins with a piece.
            let square = |it: Square| [b'a' + it.file(), b'1' + it.rank()];
            if san[0].is_ascii_uppercase() && san[0] != b'O' {
                san = [&san[..1], &square(played.mv.from), &square(played.mv.to)].concat();
            }
        }
        _ => {}
    }
    san
}

fn comment(dice: &mut Dice) -> Vec<u8> {
    let mut text = vec![b'{'];
    for _ in 0..dice.below(5) {
        let length = *dice.pick(&[1, 3, 8, 30, 79]);
        text.extend((0..length).map(|_| *dice.pick(b"abcXYZ019.,;%()[]\"\\$!?*")));
        text.push(*dice.pick(b" \n"));
    }
    text.push(b'}');
    text
}

/// The begin of a game: pairs, and perhaps a position.
fn begin(dice: &mut Dice) -> Vec<u8> {
    let mut text = vec![b'\n'];
    for _ in 0..dice.below(4) {
        text.extend_from_slice(dice.pick(&TAGS).as_bytes());
        text.push(b'\n');
    }
    if dice.one_in(2) {
        text.extend_from_slice(format!("[FEN \"{}\"]\n", dice.pick(&STARTS)).as_bytes());
    }
    text
}

/// Goes on with a few items of movetext.
fn go_on(text: &mut Vec<u8>, mut end: End, dice: &mut Dice) {
    for _ in 0..1 + dice.below(12) {
        text.push(*dice.pick(b"    \n"));
        match dice.below(20) {
            0 | 1 => {
                text.push(b'(');
                end.take(TokenKind::LeftParen);
            }
            2 if end.levels.len() > 1 => {
                text.push(b')');
                end.take(TokenKind::RightParen);
            }
            3 => text.extend(comment(dice)),
            4 => text.extend_from_slice(format!("${}", dice.below(257)).as_bytes()),
            5 => text.extend_from_slice(
                dice.pick(&["!", "?", "!?", "??", "1.", "...", ";a b\n"])
                    .as_bytes(),
            ),
            6 => {
                text.extend_from_slice(dice.pick(&MARKERS).text());
                return;
            }
            _ => {
                let now = end.level().1;
                let Some(played) = some_move(&now, dice) else {
                    text.push(b'*');
                    return;
                };
                if now.side() == Colour::White && dice.one_in(3) {
                    text.extend_from_slice(format!("{}.", now.full()).as_bytes());
                }
                text.extend(text_of(&now, &played, dice));
                end.play(played.next);
            }
        }
    }
}

/// The text, changed as the seed says.
pub fn changed(text: &[u8], seed: u32) -> Vec<u8> {
    let mut dice = Dice::of(&seed.to_le_bytes());
    let mut text = text.to_vec();
    if dice.one_in(3) {
        text.truncate(dice.below(text.len() + 1));
    }
    let mut text = without_fault(text);
    if end_of(&text).is_between_games {
        text.extend(begin(&mut dice));
    }
    let end = end_of(&text);
    go_on(&mut text, end, &mut dice);
    text
}
