//! What Rust's users expect of the types. **Not proved**: written for Cargo.

use crate::{LexFault, LexReason, Lexer};
use core::fmt::{self, Debug, Display, Formatter};

impl Display for LexReason {
    /// Writes the words that the program reports.
    fn fmt(&self, out: &mut Formatter<'_>) -> fmt::Result {
        out.write_str(match self {
            LexReason::StrayByte => "stray byte",
            LexReason::ControlByte => "control byte",
            LexReason::Reserved => "reserved character",
            LexReason::SymbolTooLong => "symbol is too long",
            LexReason::StringTooLong => "string is too long",
            LexReason::WordTooLong => "comment word is too long",
            LexReason::LoneDollar => "dollar sign without a number",
            LexReason::GlyphRange => "glyph is above 255",
            LexReason::BadSuffix => "unknown move suffix",
            LexReason::BraceInLineComment => "closing brace in a line comment",
            LexReason::UnclosedString => "string is not closed",
            LexReason::UnclosedComment => "comment is not closed",
        })
    }
}

#[cfg(feature = "std")]
impl std::error::Error for LexReason {}

impl Display for LexFault {
    /// Writes the line that the program reports, such as `byte 3: stray byte`.
    fn fmt(&self, out: &mut Formatter<'_>) -> fmt::Result {
        write!(out, "byte {}: {}", self.at, self.reason)
    }
}

#[cfg(feature = "std")]
impl std::error::Error for LexFault {}

impl Debug for Lexer {
    fn fmt(&self, out: &mut Formatter<'_>) -> fmt::Result {
        out.debug_struct("Lexer")
            .field("place", &self.place())
            .finish_non_exhaustive()
    }
}

impl Default for Lexer {
    fn default() -> Lexer {
        Lexer::new()
    }
}
