//! What Rust's users expect of the types. **Not proved**: written for Cargo.

use crate::{
    ArchiveItems, Converter, Fault, Games, Inlet, Items, LineOfPlay, MoveOfLine, Ply, ReadFailed,
    Reason, Rewinds, SliceSource,
};
use std::error::Error;
use std::fmt::{self, Debug, Display, Formatter};
use std::io::{Read, Seek, SeekFrom};

impl Display for Fault {
    /// Writes the line that the program reports, which is [`Fault::line`].
    fn fmt(&self, out: &mut Formatter<'_>) -> fmt::Result {
        write_ascii(out, &self.line())
    }
}

impl Error for Fault {}

impl Display for Reason {
    /// Writes the words that the program reports, without the place.
    fn fmt(&self, out: &mut Formatter<'_>) -> fmt::Result {
        let line = Fault {
            at: 0,
            reason: *self,
        }
        .line();
        write_ascii(out, &line[b"byte 0: ".len()..])
    }
}

impl Error for Reason {}

fn write_ascii(out: &mut Formatter<'_>, text: &[u8]) -> fmt::Result {
    out.write_str(std::str::from_utf8(text).map_err(|_| fmt::Error)?)
}

impl Display for ReadFailed {
    /// Writes the words that the program reports.
    fn fmt(&self, out: &mut Formatter<'_>) -> fmt::Result {
        Display::fmt(&Reason::ReadFault, out)
    }
}

impl Error for ReadFailed {}

impl<R: Read + Seek> Rewinds for Inlet<R> {
    fn set_to(&mut self, place: u64) -> Result<(), ReadFailed> {
        if self.reader.seek(SeekFrom::Start(place)).is_ok() {
            return Ok(());
        }
        self.failures = self.failures.saturating_add(1);
        Err(ReadFailed)
    }
}

/// Shows a type, with its parameters, by calls of its own.
macro_rules! shows {
    ($([$($parameters:tt)*] $type:ident<$($argument:tt),+>: $($call:ident)*;)*) => {$(
        impl<$($parameters)*> Debug for $type<$($argument),+> {
            fn fmt(&self, out: &mut Formatter<'_>) -> fmt::Result {
                out.debug_struct(stringify!($type))
                    $(.field(stringify!($call), &self.$call()))*
                    .finish_non_exhaustive()
            }
        }
    )*};
}

shows! {
    [const T: usize, const L: usize] Converter<T, L>: place games fault is_finished;
    [const T: usize, const L: usize] Games<T, L>: games;
    [const T: usize, const L: usize] Items<T, L>: place games depth;
    [const T: usize, const L: usize] ArchiveItems<T, L>: items games;
    [] LineOfPlay<'_>: position;
    [] SliceSource<'_>:;
    [R] Inlet<R>:;
}

impl<const T: usize, const L: usize> Default for ArchiveItems<T, L> {
    #[track_caller]
    fn default() -> Self {
        ArchiveItems::new()
    }
}

impl<const T: usize, const L: usize> Default for Items<T, L> {
    #[track_caller]
    fn default() -> Self {
        Items::new()
    }
}

impl Debug for MoveOfLine {
    fn fmt(&self, out: &mut Formatter<'_>) -> fmt::Result {
        out.debug_struct("MoveOfLine")
            .field("at", &self.at)
            .field("played", &self.played)
            .finish()
    }
}

impl Debug for Ply {
    fn fmt(&self, out: &mut Formatter<'_>) -> fmt::Result {
        out.debug_struct("Ply")
            .field("at", &self.at)
            .field("played", &self.played)
            .field("san", &self.san)
            .finish()
    }
}
